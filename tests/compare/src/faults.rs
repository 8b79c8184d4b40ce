//! The faults that can be planted in the resolver of `faulty`: what each is, and
//! the worked case (docs/CASES.md) that shows it best.

/// Declares the faults.
macro_rules! faults {
    ($($name:ident: $line:literal, $case:literal;)*) => {
        #[derive(Clone, Copy, Debug, PartialEq, Eq)]
        pub enum Fault { $($name),* }

        impl Fault {
            pub const ALL: &'static [Fault] = &[$(Fault::$name),*];

            /// What the fault is.
            pub fn line(self) -> &'static str {
                match self { $(Fault::$name => $line),* }
            }

            /// Whether it is one of those in the builder.
            #[cfg(test)]
            pub fn is_of_builds(self) -> bool {
                self.found_by().starts_with("build-")
            }

            /// The name of a worked case that finds it, if one does.
            pub fn found_by(self) -> &'static str {
                match self { $(Fault::$name => $case),* }
            }

            /// Whether it is one of manifests: no worked case asks for these.
            pub fn is_of_manifests(self) -> bool {
                self.found_by().is_empty()
            }
        }
    };
}

faults! {
    // The slips of RULES 14.
    HandleByNode: "the handle is told by its node alone", "slip-handle-by-node";
    FoldedText: "a name and the \"..\" after it are folded as text", "slip-folded-link";
    NoSymlinksUnfollowed: "NO_SYMLINKS refuses an unfollowed last link", "slip-no-symlinks";
    UnknownFlagIgnored: "an unknown bit of flags is ignored", "flags-bit-0";
    UnknownResolveIgnored: "an unknown bit of resolve is ignored", "resolve-bit-5";
    UnknownLow32: "unknown bits are looked for in the low 32 alone", "flags-bit-32";
    NoXdevAtStart: "NO_XDEV refuses an absolute path to another mount", "slip-no-xdev-start";
    // Before the walk.
    HighestUnknownBit: "the highest unknown bit is named", "flags-bits-0-63";
    TailIgnored: "bytes after the 24th are not looked at", "how-25-byte-25-set";
    PaddingIgnored: "the padding is not looked at", "padding-byte-11";
    ScopesLate: "both scopes are refused only after the path's length", "order-scopes-path";
    HowBound: "an open_how of 4,096 bytes is refused", "how-4096-zeros";
    PathBound: "a path of 4,095 bytes is refused", "path-4095-dots";
    ZeroByteFirst: "a zero byte is refused before the path's length", "order-path-zero";
    CoveredHandle: "a covered handle is let through", "handle-covered";
    HandleAnywhere: "a handle may lie outside its mount", "handle-outside-mount-1";
    HandleKindLate: "the handle's place is tested before its kind", "order-kind-under";
    HandleCut: "the handle's numbers are cut to 32 bits", "handle-mount-2-to-32";
    // Whether the handle is checked.
    HandleAlways: "the handle is checked for every path", "handle-node-12-absolute";
    RangeAlways: "an absolute path wants a handle in range", "handle-both-2-to-64-less-1-absolute";
    KindAlways: "an absolute path wants a handle that is a directory", "handle-file-absolute";
    PlaceAlways: "an absolute path wants a handle in its mount and not covered",
        "handle-covered-absolute";
    RestrictedChecked: "an absolute path's handle is checked if resolve is not 0",
        "unchecked-mount-no-xdev";
    BeneathChecked: "an absolute path's handle is checked under BENEATH", "handle-covered-beneath";
    SlashesChecked: "the handle is checked for a path of slashes alone", "unchecked-slashes";
    InRootUnchecked: "an absolute path's handle is not checked under IN_ROOT",
        "handle-covered-in-root";
    MarkedUnchecked: "an absolute path's handle is not checked if it is marked",
        "handle-covered-mark";
    MarkedKindUnchecked: "the kind of a marked handle is not checked for an absolute path",
        "handle-file-mark";
    MarkBeforeHandle: "the mark refuses an absolute path before the handle is checked",
        "handle-covered-mark-in-root";
    BeneathUnchecked: "a relative path's handle is not checked under BENEATH", "order-range-walk";
    BeneathBeforePath: "BENEATH refuses an absolute path before its length and bytes",
        "order-zero-beneath-absolute";
    // The walk.
    StartCounted: "an absolute path refused by BENEATH counts as one component", "start-beneath";
    StartAtTop: "an absolute path begins at mount 0's root under IN_ROOT too", "start-in-root";
    NoStartInRoot: "Start is not met under IN_ROOT", "start-mark-in-root";
    NoEscapeInRoot: "Escape is not met under IN_ROOT", "escape-mark-in-root";
    EscapeOnce: "Escape is not met on coming back to the handle", "dotdot-back-at-handle-beneath";
    RootsParent: "\"..\" at a mount's root goes to the root's parent", "climb-from-handle";
    ClimbNotMet: "\"..\" climbs without a Cross", "climb-no-xdev";
    ParentNotEntered: "\"..\" enters no mount", "parent-entered";
    DotEnters: "\".\" on a covered place enters the mount", "magic-covered-target-dot";
    CoverByNode: "a place is covered whatever its mount", "slip-cover-by-node";
    NamePrefix: "a name is found by its beginning", "name-beginning";
    LongNameAbsent: "a name of over 255 bytes is just absent", "name-256";
    RefusedNameUncounted: "a name refused at lookup is not counted", "name-absent";
    LastInOwnText: "a component is last if only slashes follow in its own text",
        "last-in-every-text";
    NofollowBeatsSlash: "O_NOFOLLOW wins over a slash ending the path", "nofollow-slash";
    FortyFirstLink: "the 41st link is let through", "links-tail-41";
    LimitAfterEvents: "the 41st link is refused only after its events", "links-41st-magic-beneath";
    CountedAtEvent: "a link counts as followed at its event", "link-no-symlinks";
    MagicUncounted: "magic links are not counted", "magic";
    SlashBodyUncounted: "a body of slashes only is not counted", "body-slash";
    MagicEnters: "a mount on a magic link's target is entered", "magic-covered-target";
    MagicFileHere: "a magic link's file is put in the current mount", "magic-file-in-its-mount";
    MagicBeforeLink: "Magic is met before Link", "link-before-magic";
    InRootBeforeRow: "IN_ROOT refuses a magic link before its row is tried", "magic-in-root-mark";
    MagicFromRoot: "Magic compares the target's mount with the root's",
        "magic-same-mount-1-no-xdev";
    JumpFromHandle: "Jump compares the handle's mount with the root's", "jump-after-start-no-xdev";
    JumpToTop: "an absolute body begins at mount 0's root under IN_ROOT too", "jump-in-root";
    JumpNoXdev: "Jump is forbidden by NO_XDEV in every mount", "jump-same-mount-no-xdev";
    BodyFromRoot: "a relative body is read from the root", "relative-body";
    EscapeRowSwapped: "BENEATH stands before the mark at Escape", "escape-mark-beneath";
    JumpRowSwapped: "BENEATH stands before the mark at Jump", "jump-row-mark-beneath";
    MagicRowSwapped: "NO_MAGICLINKS stands before the mark at Magic",
        "magic-row-mark-no-magiclinks";
    MagicXdevFirst: "NO_XDEV stands before NO_MAGICLINKS at Magic",
        "magic-row-no-magiclinks-no-xdev";
    NotDirectoryCounted: "ENOTDIR comes after the next component is counted", "not-directory";
    RequirementDropped: "a nested last link drops the directory requirement", "required-by-body";
    RequirementSpread: "a body's slash requires a directory though its link is not last",
        "not-required-by-body-of-other-link";
    LinkBeforeDirectory: "ELOOP for an unfollowed link comes before ENOTDIR", "end-link-required";
    TouchedPath: "the last byte of a path is changed", "P1";
    // What confines the walk (RULES 20).
    InRootIsTop: "the root under IN_ROOT is mount 0's", "P6-in-root";
    InRootLetsMagic: "IN_ROOT lets a magic link through", "magic-in-root";
    MarkLetsMagic: "the mark lets Magic pass", "magic-row-mark";
    BeneathLetsMagic: "BENEATH lets Magic pass", "magic-row-beneath";
    MarkLetsJump: "the mark lets Jump pass", "jump-row-mark";
    BeneathLetsJump: "BENEATH lets Jump pass", "jump-row-beneath";
    EntryBehind: "the entry behind a directory's last is looked at too", "name-in-next-directory";
    LinksByNodes: "no more links are followed than there are nodes", "P10";
    // The table.
    MountZeroCovers: "mount 0 covers its root", "handle-root";
    TextBound: "a name may not end where the text ends", "rule-5-name-to-the-end";
    BodyBound: "a body of 4,095 bytes is refused", "rule-4-body-4095";
    NameBound: "a name of 255 bytes is refused", "rule-5-name-255";
    MostNodes: "4,096 nodes are refused", "rule-3-4096-nodes";
    MostMounts: "256 mounts are refused", "rule-3-256-mounts";
    MostEntries: "4,096 entries are refused", "rule-3-4096-entries";
    LongestImage: "an image of 65,536 bytes is refused", "rule-1-65536";
    WrappingSums: "sums wrap at 32 bits", "rule-3-wraps";
    EarlierRecord: "a clash of mounts is charged to the earlier record", "rule-6-clash-last";
    EarlierName: "two names out of order are charged to the earlier record",
        "rule-5-descending-first";
    EqualNames: "a directory may hold a name twice", "rule-5-equal-first";
    SlashInName: "a name may hold a slash", "rule-5-slash-first";
    DotsNamed: "a name may be \"..\"", "rule-5-dots-first";
    MountField: "the last field of a mount is not looked at", "rule-6-field-first";
    SignedNames: "names are ordered as signed bytes", "rule-5-bytes-unsigned";
    EmptyFirst: "an empty directory's first is not looked at", "rule-4-first-less-last";
    SumAtLast: "a wrong sum of counts is charged to the last node", "rule-4-sum-more";
    TopNamed: "the top of a tree may be named in itself", "rule-5-top-first";
    CutMagic: "a magic link's numbers are cut to 16 bits", "rule-7-mount-65536";
    MagicAnywhere: "a magic link's directory may lie outside the mount",
        "rule-7-target-outside-last";
    PointAtRoot: "a mount point may be the parent's root", "rule-6-point-root-first";
    ClashAcrossParents: "mount points clash whatever their parents", "rule-6-many-other-parent";
    // Descriptors.
    HighestFree: "the highest free number is given", "lowest-1";
    LastKept: "the 64th descriptor is not given", "fill-63";
    NumberModulo: "a number above 63 is taken modulo 64", "number-4";
    NumberCut: "a number is cut to 32 bits", "number-7";
    StartMarked: "descriptor 0 starts marked", "start-4";
    MarkUnread: "an open does not read the mark of its number", "asked-2";
    MarkShared: "a mark set later is seen on duplicates", "dup-then-set-5";
    MarkDropped: "a duplicate drops the mark", "dup-marked-3";
    MarkInherited: "what is opened through a marked descriptor is marked", "through-3";
    AcceptedUnmarked: "the open that wants an accepted image forgets the mark asked for", "asked-2";
    MarkAnything: "the mark is set on what is no directory", "set-8";
    MarkBeforeNumber: "the mark's EINVAL comes before EBADF", "number-38";
    MarkAfterWalk: "the mark's EINVAL comes after the resolver's refusal", "asked-order-1";
    FullFirst: "EMFILE comes before the resolver's refusal", "fill-71";
    FullCounts: "EMFILE carries the counts of the walk", "fill-64";
    RefusalCloses: "a refused open closes its number", "leaves-5";
    ClosedUnneeded: "an absolute path is opened from a closed number", "number-37";
    AskedChecked: "the mark asked for has the handle of an absolute path checked", "absolute-9";
    RefusedFirst: "an open over a refused table is EUCLEAN, not EBADF", "start-refused-1";
    // Lookups: the halving.
    LaterMiddle: "of two middles the later is compared", "lookup-two-earlier";
    EqualUncounted: "the equal name is not counted", "lookup-middle";
    OtherSide: "the side that cannot hold the name is kept", "lookup-last";
    GoesOn: "the halving goes on at an equal name", "lookup-middle";
    MiddleKept: "a name compared is kept with the names after it", "lookup-last";
    LastUncompared: "a name left alone is not compared", "lookup-last";
    OneByOne: "names are compared one by one", "lookup-last";
    AbsentUncounted: "ENOENT tells no count", "lookup-absent-between";
    AcceptedUncounted: "the lookup that wants an accepted image tells no count",
        "lookup-middle";
    // Lookups: the order of names.
    SignedLookup: "a lookup orders names as signed bytes", "lookup-byte-255";
    ShorterAfter: "a name stands before its own beginning", "lookup-shorter";
    BeginningFound: "a lookup finds a name by its beginning", "lookup-beginning";
    LongerFound: "a lookup finds the beginning of a longer name", "lookup-longer";
    FarBytesUnread: "a lookup reads the first 200 bytes of names alone", "lookup-alike-second";
    // Lookups: what is asked for.
    ZeroByteEnds: "a zero byte ends the name that is looked up", "lookup-zero-byte";
    NameCut8: "the length of a name that is looked up is cut to 8 bits", "lookup-260-bytes";
    NameCut255: "a name that is looked up is cut to 255 bytes", "lookup-alike-256-bytes";
    LongNameRefused: "a lookup of over 255 bytes is ENAMETOOLONG", "lookup-260-bytes";
    LongNameUncounted: "a lookup of over 255 bytes compares none", "lookup-260-bytes";
    EmptyNameUncounted: "a lookup of an empty name compares none", "lookup-empty";
    DotFound: "a lookup finds the directory itself as \".\"", "lookup-dot";
    NodeCut16: "a directory's number is cut to 16 bits", "lookup-node-65537";
    NodeCut32: "a directory's number is cut to 32 bits", "lookup-node-2-to-32-and-1";
    NodeErrorsSwapped: "ENOTDIR and EBADF of a lookup are swapped", "lookup-file";
    NodeBeforeTable: "a lookup's EBADF comes before EUCLEAN", "lookup-order-table-node";
    TouchedName: "the last byte of a name that is looked up is changed", "lookup-middle";
    // Lookups: what is told.
    NoDirectoryCounted: "ENOTDIR tells a count", "lookup-file";
    NodeForEntry: "the node is told in place of the entry", "lookup-two-later";
    EntryInDirectory: "the entry is told by its place in the directory", "lookup-two-later";
    LookupEnters: "a lookup enters the mount on the node", "lookup-two-later";
    // Builds: the text that is written.
    BodiesFirst: "bodies stand before names", "build-narrow";
    BodiesReversed: "the body of a later link stands before that of an earlier one", "build-bench";
    CallersOrder: "names and bodies keep the order of the caller's text", "build-bench-backwards";
    TextShared: "a text that is written twice is shared", "build-dozens";
    BodyShared: "a body shares the text of a name", "build-bench-shared";
    TextCopied: "the caller's text is copied as it is", "build-smallest-text";
    UnnamedDropped: "the body of a link that no entry names is not written", "build-body-1";
    // Builds: the offsets.
    BodyOffsetKept: "the offset of a body is not renewed", "build-bench-gaps";
    NameOffsetKept: "the offset of a name is not renewed", "build-bench-gaps";
    MagicHasBody: "a magic link is taken for one with a body", "build-bench";
    OffsetCut8: "a written offset is cut to 8 bits", "build-many";
    OffsetCut15: "a written offset is cut to 15 bits", "build-late";
    OffsetCut16: "the caller's offset is cut to 16 bits", "build-bench-at-65536";
    OffsetFromHeader: "a written offset is counted from the image's beginning", "build-bench";
    TotalOfText: "the header's total length is the text's", "build-smallest";
    // Builds: the length.
    LongestBuilt: "an image of 65,536 bytes is not built", "build-largest";
    OutsideUncounted: "the length of a part outside the text is not counted",
        "build-body-65485-none";
    FilesCounted: "a file's count is counted as a body's", "build-count-of-file";
    DirectoriesCounted: "a directory's count is counted as a body's", "build-count-of-directory";
    CallersTextCounted: "the caller's whole text is counted", "build-smallest-long-text";
    SumWraps: "the sum of declared lengths wraps at 32 bits", "build-sum-wraps";
    BodyCut16: "the length of a body is cut to 16 bits in the sum", "build-body-low-16";
    CutCounted: "a record cut short is counted", "build-cut-at-65536";
    // Builds: the rules.
    CutIgnored: "a record cut short is ignored", "build-cut-nodes-1";
    CountsCut16: "counts of records are cut to 16 bits", "build-65537-nodes";
    RecordsBeforeLength: "rule 3 is judged before rule 1", "build-5460-nodes";
    NodesBeforeLength: "rule 4 is judged before rule 1", "build-lowest-1-4";
    NamesBeforeNodes: "a name outside the text breaks rule 5 before any node rule 4",
        "build-outside-4-5";
    OutsideRule3: "a part outside the text breaks rule 3", "build-no-text-last-body";
    OutsideAtZero: "a part outside the text is charged to record 0", "build-no-text-last-body";
    FirstSetRight: "a directory's first is set right, not checked", "build-first-more";
    // Builds: the buffer and the answer.
    RangeFirst: "ERANGE comes before the rules", "build-short-rule-4-0";
    RoomBound: "a buffer that just holds the image is too short", "build-room-bench-316";
    RoomShort: "a buffer that is a byte too short is let through", "build-room-bench-315";
    RoomByCaller: "the buffer must hold the caller's text", "build-smallest-long-text";
    RangeTellsRoom: "ERANGE tells the length of the buffer", "build-room-bench-0";
    RangeWrites: "with ERANGE the buffer is written as far as it goes", "build-room-bench-315";
    RefusalClears: "a refusal clears the buffer", "build-short-rule-4-315";
    RefusalTellsBytes: "EUCLEAN tells the length of the image", "build-runs";
    BeyondZeroed: "the bytes beyond the image are cleared", "build-room-bench-318";
    ByteBeyond: "a byte beyond the image is cleared", "build-room-bench-317";
    BytesShort: "the length told is one less", "build-bench";
    BytesOfBuffer: "the length told is that of the buffer", "build-room-bench-317";
    TouchedText: "the last byte of the lent text is changed", "build-bench";
    // Manifests, which no worked case asks for.
    ManifestBody: "the last byte of a body is dropped", "";
    ManifestParent: "the parent of a mount is forgotten", "";
    ManifestNameless: "a directory without a name is lost", "";
    ManifestTwoFiles: "a hard link is made a second file", "";
    ManifestRoot: "what mount 0 shows is forgotten", "";
    ManifestTarget: "the mount of a magic link's target is forgotten", "";
}

impl Fault {
    /// Those that break a claim of RULES 20, which pairs must show by the claims alone.
    pub const UNCONFINED: [Fault; 17] = [
        Fault::InRootIsTop,
        Fault::InRootLetsMagic,
        Fault::MarkLetsMagic,
        Fault::BeneathLetsMagic,
        Fault::MarkLetsJump,
        Fault::BeneathLetsJump,
        Fault::EntryBehind,
        Fault::LinksByNodes,
        Fault::StartAtTop,
        Fault::JumpToTop,
        Fault::EscapeOnce,
        Fault::RootsParent,
        Fault::CoverByNode,
        Fault::MagicXdevFirst,
        Fault::MountZeroCovers,
        Fault::MarkUnread,
        Fault::MarkDropped,
    ];
}
