"""Images that are written from their records and a text. The bytes of each image are spelled out; nothing here builds one."""

import fields  # noqa: F401  (its tables are built too)
import tables
import trees
from image import DIRECTORY, FILE, MAGIC, SYMLINK, Source, entries, mounts, nodes, source, spelled
from listed import *
from tables import SMALLEST, of_body, of_four_mounts, of_mounts, of_name, of_nodes

# ---------------------------------------------------------------------------------------------------------------------------------
# The images, their text in the order that they are written with.

BENCH = spelled(
    (12, 2, 10, 56, 316),
    nodes(
        (DIRECTORY, 0, 0, 1),
        (DIRECTORY, 0, 1, 2),  # lab
        (DIRECTORY, 1, 3, 6),  # cal
        (FILE, 0, 0, 0),
        (SYMLINK, 0, 29, 5),  # up
        (SYMLINK, 0, 34, 13),  # abs
        (SYMLINK, 0, 47, 4),  # loop
        (DIRECTORY, 1, 9, 0),  # pool
        (DIRECTORY, 8, 9, 1),
        (FILE, 0, 0, 0),
        (MAGIC, 0, 0, 3),  # fd
        (SYMLINK, 0, 51, 5),  # t
    ),
    mounts((0, 0, 0), (8, 0, 7)),
    entries(
        (0, 3, 1), (3, 3, 2), (6, 4, 7), (10, 3, 5), (13, 2, 10), (15, 4, 6), (19, 1, 11), (20, 4, 3), (24, 2, 4), (26, 3, 9),
    ),
    b"lab" b"cal" b"pool" b"abs" b"fd" b"loop" b"t" b"tare" b"up" b"run" b"../.." b"/lab/cal/tare" b"loop" b"tare/",
)

NARROW = spelled(
    (6, 2, 4, 5, 145),
    nodes((DIRECTORY, 0, 0, 1), (DIRECTORY, 0, 1, 3), (FILE, 0, 0, 0), (SYMLINK, 0, 4, 1), (MAGIC, 0, 1, 5), (DIRECTORY, 5, 4, 0)),
    mounts((0, 0, 0), (5, 0, 1)),
    entries((0, 1, 1), (1, 1, 2), (2, 1, 3), (3, 1, 4)),
    b"d" b"f" b"l" b"m" b"f",
)

# 0 a link to `x`, 1 top, 2 a file, 3 a link to `y/`; "a", "b" and "c" in 1. Nodes and entries have a text both first and last.
ENDS = spelled(
    (4, 1, 3, 6, 106),
    nodes((SYMLINK, 0, 3, 1), (DIRECTORY, 1, 0, 3), (FILE, 0, 0, 0), (SYMLINK, 0, 4, 2)),
    mounts((1, 0, 1)),
    entries((0, 1, 0), (1, 1, 2), (2, 1, 3)),
    b"a" b"b" b"c" b"x" b"y/",
)

# 0 top, 1 file "notes.old", 2 link "new" to `old`.
NOTES = spelled(
    (3, 1, 2, 15, 95),
    nodes((DIRECTORY, 0, 0, 2), (FILE, 0, 0, 0), (SYMLINK, 0, 12, 3)),
    mounts((0, 0, 0)),
    entries((0, 3, 2), (3, 9, 1)),
    b"new" b"notes.old" b"old",
)

# 0 top, 1 a file with the names "a", "aa" and "aaa", 2 a link to `aaaa` without a name.
OVERLAID = spelled(
    (3, 1, 3, 10, 98),
    nodes((DIRECTORY, 0, 0, 3), (FILE, 0, 0, 0), (SYMLINK, 0, 6, 4)),
    mounts((0, 0, 0)),
    entries((0, 1, 1), (1, 2, 1), (3, 3, 1)),
    b"a" b"aa" b"aaa" b"aaaa",
)

# 0 top, 1 "d" in 0, 2 a link to `..` with the names "a" in 0 and "b" in 1, 3 a link to `d` without a name.
TWICE = spelled(
    (4, 1, 3, 6, 106),
    nodes((DIRECTORY, 0, 0, 2), (DIRECTORY, 0, 2, 1), (SYMLINK, 0, 3, 2), (SYMLINK, 0, 5, 1)),
    mounts((0, 0, 0)),
    entries((0, 1, 2), (1, 1, 1), (2, 1, 2)),
    b"a" b"d" b"b" b".." b"d",
)

# The trees `begun`, `high` and `far` of trees.py.
BEGUN = spelled(
    (9, 1, 8, 17, 217),
    nodes((DIRECTORY, 0, 0, 8), *[(FILE, 0, 0, 0)] * 8),
    mounts((0, 0, 0)),
    entries((0, 1, 1), (1, 2, 2), (3, 3, 3), (6, 3, 4), (9, 2, 5), (11, 3, 6), (14, 1, 7), (15, 2, 8)),
    b"a" b"aa" b"aaa" b"aab" b"ab" b"aba" b"b" b"ba",
)
HIGH = spelled(
    (8, 1, 7, 9, 189),
    nodes((DIRECTORY, 0, 0, 7), *[(FILE, 0, 0, 0)] * 7),
    mounts((0, 0, 0)),
    entries((0, 1, 1), (1, 1, 2), (2, 1, 3), (3, 2, 4), (5, 1, 5), (6, 1, 6), (7, 2, 7)),
    b"\x7a" b"\x7f" b"\x80" b"\xc3\xa9" b"\xfe" b"\xff" b"\xff\xff",
)
FAR = spelled(
    (3, 1, 2, 3, 83),
    nodes((DIRECTORY, 0, 0, 2), (FILE, 0, 0, 0), (SYMLINK, 0, 2, 1)),
    mounts((0, 0, 0)),
    entries((0, 1, 1), (1, 1, 2)),
    b"f" b"l" b"f",
)

# Fields above 255. 0 top, 1 to 300 files "0001" to "0300" in 0, 301 "d" in 0, 302 "e" in 301, 303 "l" in 302, a link to 150 times `./`,
# 304 top of a second tree, 305 a magic link to (1,304). Mount 1 has root 304 on (0,301).
MANY = spelled(
    (306, 2, 303, 1503, 7635),
    nodes(
        (DIRECTORY, 0, 0, 301), *[(FILE, 0, 0, 0)] * 300, (DIRECTORY, 0, 301, 1), (DIRECTORY, 301, 302, 1), (SYMLINK, 0, 1203, 300),
        (DIRECTORY, 304, 303, 0), (MAGIC, 0, 1, 304),
    ),
    mounts((0, 0, 0), (304, 0, 301)),
    entries(*((4 * i, 4, 1 + i) for i in range(300)), (1200, 1, 301), (1201, 1, 302), (1202, 1, 303)),
    b"".join(b"%04d" % i for i in range(1, 301)) + b"d" b"e" b"l" + b"./" * 150,
)

# 65,536 bytes with 4,096 entries. 0 to 31 tops, in each of them file 32 by the names "run-000" to "run-127"; 33 a link to 1,830 times `./`.
NAMES = b"".join(b"run-%03d" % i for i in range(128))
LARGEST = spelled(
    (34, 1, 4096, 32332, 65536),
    nodes(*((DIRECTORY, i, 128 * i, 128) for i in range(32)), (FILE, 0, 0, 0), (SYMLINK, 0, 28672, 3660)),
    mounts((0, 0, 0)),
    entries(*((7 * i, 7, 32) for i in range(4096))),
    NAMES * 32 + b"./" * 1830,
)
OF_LARGEST = source(LARGEST)._replace(text=NAMES + b"./" * 1830 + b".").node(33, first=896)
OF_LARGEST = OF_LARGEST._replace(entries=entries(*((7 * i, 7, 32) for i in range(128))) * 32)

# Offsets above 32,767, of names and of bodies. 0 top, 1 a file with 160 names of 255 bytes, each three digits before 252 times "n"; 2 to 6 links to
# 2,000 times `./`, without a name.
LATE_NAMES = [b"%03d" % i + b"n" * 252 for i in range(160)]
LATE = spelled(
    (7, 1, 160, 60800, 62192),
    nodes((DIRECTORY, 0, 0, 160), (FILE, 0, 0, 0), *((SYMLINK, 0, 40800 + 4000 * i, 4000) for i in range(5))),
    mounts((0, 0, 0)),
    entries(*((255 * i, 255, 1) for i in range(160))),
    b"".join(LATE_NAMES) + b"./" * 10000,
)
OF_LATE = source(LATE).placed(
    b"./" * 2000 + b"".join(reversed(LATE_NAMES)), [4000 + 255 * (159 - i) for i in range(160)], dict.fromkeys(range(2, 7), 0)
)

OF_SMALLEST, OF_BENCH, OF_NARROW, OF_ENDS = source(SMALLEST), source(trees.bench()), source(trees.narrow()), source(ENDS)
NOTHING = Source(b"", b"", b"", b"")
ZEROS = bytes(65536)

# ---------------------------------------------------------------------------------------------------------------------------------
group(
    "Builds: the image",
    "A build has the parts of an image: its node, mount and entry records, and a text. It answers with what was written and its length, or "
    "the rule and record, or ERANGE and the length wanted. The buffer has 65,536 bytes unless said.",
)
says(
    "19.1, 19.3",
    "Add a builder which takes document 01's node, mount and entry records, with text offsets into the caller's text, in lent buffers .. and "
    "writes an image. .. Smallest image, whole (40 bytes): ..",
)
build("build-smallest", OF_SMALLEST, written(SMALLEST), "a top and mount 0")
build("build-smallest-text", OF_SMALLEST._replace(text=b"text"), written(SMALLEST), "the same with a text that no record has")
build("build-smallest-long-text", OF_SMALLEST._replace(text=ZEROS), written(SMALLEST), "the same with one of 65,536 zero bytes")
build("build-bench", OF_BENCH, written(BENCH), "`bench`, its own parts")
build("build-narrow", OF_NARROW, written(NARROW), "`narrow`, its own parts")
build("build-many", source(MANY), written(MANY), "306 nodes, 303 entries, a text of 1,503 bytes")
for name, image, shown in [
    ("inner", trees.inner(), "`inner`: mount 0 has root 2"),
    ("four-mounts", of_four_mounts(), "four mounts"),
    ("256-mounts", of_mounts(256), "256 mounts, no entry"),
    ("most", trees.most(), "`most`: 4,096 nodes, 256 mounts"),
    ("name-1", of_name(1), "a name of 1 byte"),
    ("name-255", of_name(255), "a name of 255 bytes"),
    ("body-1", of_body(1), "a body of 1 byte, no entry"),
    ("body-4095", of_body(4095), "a body of 4,095 bytes"),
    ("alike", trees.alike(), "`alike`"),
    ("twins", trees.twins(), "`twins`"),
    ("pairs", trees.pairs(), "`pairs`"),
    ("dozens", trees.dozens(), "`dozens`"),
]:
    build(f"build-{name}", source(image), written(image), f"{shown}; the text is in order")

says(
    "19.4, 19.5",
    "The written text area holds entry names in entry order, then link bodies in node order, without gaps or sharing, so there is one image "
    "for one tree.",
)
build(
    "build-bench-backwards",
    OF_BENCH.placed(
        b"tare/" b"loop" b"/lab/cal/tare" b"../.." b"run" b"up" b"tare" b"t" b"loop" b"fd" b"abs" b"pool" b"cal" b"lab",
        [53, 50, 46, 43, 41, 37, 36, 32, 30, 27],
        {4: 22, 5: 9, 6: 5, 11: 0},
    ),
    written(BENCH),
    "`bench` with its text in the opposite order",
)
SHARED = OF_BENCH.placed(b"../../lab/cal/tare/upoolooprunfdabs", [6, 10, 20, 32, 30, 23, 14, 14, 19, 27], {4: 0, 5: 5, 6: 23, 11: 14})
build("build-bench-shared", SHARED, written(BENCH), "`bench` over `../../lab/cal/tare/upoolooprunfdabs`")
APART = b"\0lab\0cal\0pool\0abs\0fd\0loop\0t\0tare\0up\0run\0../..\0/lab/cal/tare\0loop\0tare/\0"
build(
    "build-bench-gaps",
    OF_BENCH.placed(APART, [1, 5, 9, 14, 18, 21, 26, 28, 33, 36], {4: 40, 5: 46, 6: 60, 11: 65}),
    written(BENCH),
    "`bench` with a zero byte before each name and body, and at the end",
)
build(
    "build-bench-at-65536",
    OF_BENCH.placed(
        ZEROS + SHARED.text,
        [65536 + at for at in (6, 10, 20, 32, 30, 23, 14, 14, 19, 27)],
        {4: 65536, 5: 65541, 6: 65559, 11: 65550},
    ),
    written(BENCH),
    "the shared text of `bench` behind 65,536 zero bytes",
)
OF_NOTES = source(NOTES)
build("build-body-in-name", OF_NOTES.placed(b"notes.oldnew", [9, 0], {2: 6}), written(NOTES), '`old`, the body of "new", inside "notes.old"')
build("build-body-in-last-name", OF_NOTES.placed(b"newnotes.old", [0, 3], {2: 9}), written(NOTES), "the same, the names in order")
build(
    "build-name-in-body",
    OF_ENDS.placed(b"xy/ab", [3, 4, 1], {0: 0, 3: 1}),
    written(
        spelled(
            (4, 1, 3, 6, 106),
            nodes((SYMLINK, 0, 3, 1), (DIRECTORY, 1, 0, 3), (FILE, 0, 0, 0), (SYMLINK, 0, 4, 2)),
            mounts((1, 0, 1)),
            entries((0, 1, 0), (1, 1, 2), (2, 1, 3)),
            b"a" b"b" b"y" b"x" b"y/",
        )
    ),
    'the name "y" inside the body `y/`',
)
OF_OVERLAID = source(OVERLAID)
build("build-overlaid", OF_OVERLAID.placed(b"aaaa", [0, 0, 0], {2: 0}), written(OVERLAID), '"a", "aa", "aaa" and the body `aaaa`, all of one text')
build("build-overlaid-ends", OF_OVERLAID.placed(b"aaaa", [3, 2, 1], {2: 0}), written(OVERLAID), "the same, all of them at its end")
OF_TWICE = source(TWICE)
build("build-named-twice", OF_TWICE.placed(b"..abd", [2, 4, 3], {2: 0, 3: 4}), written(TWICE), "a link with two names, a link without one")
build("build-begun", source(trees.begun()), written(BEGUN), "`begun`, whose names share their text")
build("build-high", source(trees.high()), written(HIGH), "`high`: bytes above 127")
build("build-far", source(trees.far()), written(FAR), "`far`: the text has 65,456 bytes, its last three are used")
build(
    "build-many-body-first",
    source(MANY).placed(
        b"./" * 150 + b"led" + b"".join(b"%04d" % i for i in range(1, 301)),
        [303 + 4 * i for i in range(300)] + [302, 301, 300],
        {303: 0},
    ),
    written(MANY),
    "306 nodes, the body before the names in the text",
)
build("build-largest", OF_LARGEST, written(LARGEST), "65,536 bytes, 4,096 entries that share 128 names")
build("build-late", OF_LATE, written(LATE), "160 names of 255 bytes and five bodies of 4,000, at offsets up to 56,800; the text has one body, then the names backwards")

says("19.11", "Reading back gives the same tree; writing what was read from a built image gives the same bytes.")
for name, image in [
    ("bench", BENCH), ("narrow", NARROW), ("ends", ENDS), ("notes", NOTES), ("overlaid", OVERLAID), ("twice", TWICE), ("begun", BEGUN),
    ("high", HIGH), ("far", FAR), ("largest", LARGEST), ("late", LATE),
]:
    build(f"build-again-{name}", source(image), written(image), "", family="the parts of an image that was written above")

# ---------------------------------------------------------------------------------------------------------------------------------
group("Builds: rules 1 and 3")
says("19.6", "The rules are taken on the image as it would be written; .. 1. Image length 20 to 65,536.")
OF_LONGER = OF_LARGEST.node(33, count=3661)
build("build-65537-body", OF_LONGER, unwritten(1), "the image of 65,536 bytes with a body of one byte more")
build("build-runs", source(trees.runs()), unwritten(1), "`runs`: 165,000 bytes of names, which share their text")
build("build-4096-entries-shared", source(trees.full()), unwritten(1), "`full`: 262,144 bytes of names")
LINK = Source(nodes((DIRECTORY, 0, 0, 0), (SYMLINK, 0, 0, 1)), mounts((0, 0, 0)), b"", b"")
NAME = Source(nodes((DIRECTORY, 0, 0, 1), (FILE, 0, 0, 0)), mounts((0, 0, 0)), entries((0, 1, 1)), b"")
for text, where in [(b"", "outside"), (b"b" * 4095, "longer than the text")]:
    label = "none" if text == b"" else "some"
    for length, answer in [(65484, unwritten(4, 1)), (65485, unwritten(1)), (2**32 - 1, unwritten(1))]:
        build(f"build-body-{length}-{label}", LINK._replace(text=text).node(1, count=length), answer, f"node 1: a body of {length:,} bytes, {where}")
    for length, answer in [(65476, unwritten(5, 0)), (65477, unwritten(1)), (65535, unwritten(1))]:
        build(f"build-name-{length}-{label}", NAME._replace(text=text).entry(0, length=length), answer, f"entry 0: a name of {length:,} bytes, {where}")
build("build-body-65485-inside", LINK._replace(text=ZEROS).node(1, count=65485), unwritten(1), "node 1: a body of 65,485 zero bytes")
build("build-body-65484-inside", LINK._replace(text=ZEROS).node(1, count=65484), unwritten(4, 1), "node 1: a body of 65,484 zero bytes")
build("build-name-and-body", OF_ENDS.entry(0, length=40000).node(3, count=30000), unwritten(1), "a name of 40,000 bytes and a body of 30,000")
build("build-name-40000", OF_ENDS.entry(0, length=40000), unwritten(5, 0), "the name alone")
build("build-body-30000", OF_ENDS.node(3, count=30000), unwritten(4, 3), "the body alone")
build("build-two-names", OF_ENDS.entry(0, length=40000).entry(2, length=30000), unwritten(1), "two names of 40,000 and 30,000 bytes")
build("build-two-bodies", OF_ENDS.node(0, count=40000).node(3, count=30000), unwritten(1), "two bodies of 40,000 and 30,000 bytes")

says("19.6, 4.11", "Sums are plain whole numbers and never wrap.")
build("build-sum-wraps", OF_ENDS.node(0, count=2**31).node(3, count=2**31), unwritten(1), "two bodies whose lengths sum to 0 in 32 bits")
build("build-sum-wraps-by-1", OF_ENDS.node(0, count=2**32 - 1).node(3, count=3), unwritten(1), "two bodies whose lengths sum to 2 in 32 bits")
build("build-body-low-16", OF_ENDS.node(3, count=65536 + 2), unwritten(1), "a body of 65,538 bytes")
build("build-body-low-24", OF_ENDS.node(3, count=2**24 + 2), unwritten(1), "a body of 2^24 + 2 bytes")

says("19.6, 19.4", "The written text area holds entry names .., then link bodies ..")
build("build-count-of-directory", OF_ENDS.node(1, count=70000), unwritten(4, 4), "a directory's count is no length: 70,000")
build("build-count-of-file", OF_ENDS.node(2, count=70000), unwritten(4, 2), "nor is a file's")
build("build-count-of-magic", OF_ENDS.node(2, kind=MAGIC, count=70000), unwritten(7, 2), "nor is a magic link's")
for kind in [0, 5, 259, 768]:
    build(f"build-count-of-{kind}", OF_ENDS.node(2, kind=kind, count=70000), unwritten(4, 2), f"nor is that of kind {kind}")
build("build-count-of-bad-link", OF_ENDS.node(3, parent=1, count=70000), unwritten(1), "that of a link with parent 1 is")
build("build-length-of-bad-entry", OF_ENDS.entry(2, node=9, length=65535), unwritten(1), "that of an entry for node 9 of four is: 65,535")

says("19.6", "3. N 1 to 4,096, M 1 to 256, E 0 to 4,096;")
build("build-nothing", NOTHING, unwritten(3), "no part has a byte")
build("build-text-alone", NOTHING._replace(text=b"text"), unwritten(3), "a text alone")
build("build-no-node", OF_SMALLEST._replace(nodes=b""), unwritten(3), "no node")
build("build-no-mount", OF_SMALLEST._replace(mounts=b""), unwritten(3), "no mount")
build("build-no-entry", OF_NARROW._replace(entries=b""), unwritten(4, 6), "no entry, and directories with four")
build("build-no-node-but-entries", OF_NARROW._replace(nodes=b""), unwritten(3), "no node, and entries")
build("build-entries-alone", NOTHING._replace(entries=entries((0, 1, 0))), unwritten(3), "an entry alone")
PARTS = {"nodes": 12, "mounts": 8, "entries": 8}
for part, count, answer, about in [
    ("nodes", 4097, unwritten(3), ""),
    ("nodes", 5459, unwritten(3), ", 65,536 bytes in all"),
    ("nodes", 5460, unwritten(1), ", 65,548 bytes in all"),
    ("mounts", 257, unwritten(3), ""),
    ("mounts", 8188, unwritten(3), ", 65,536 bytes in all"),
    ("mounts", 8189, unwritten(1), ", 65,544 bytes in all"),
    ("entries", 4097, unwritten(3), ""),
    ("entries", 8187, unwritten(3), ", 65,536 bytes in all"),
    ("entries", 8188, unwritten(1), ", 65,544 bytes in all"),
]:
    records = OF_SMALLEST._replace(**{part: ZEROS[: PARTS[part] * count]})
    build(f"build-{count}-{part}", records, answer, f"{count:,} {part}, all zero{about}")
for part, width in PARTS.items():
    for count in [65535, 65536, 65537, 65538]:
        records = OF_SMALLEST._replace(**{part: Whatever(width * count)})
        build(f"build-{count}-{part}", records, unwritten(1), "", family=f"65,535 to 65,538 {part} of any bytes")
build("build-4097-nodes-right", source(of_nodes(4097)), unwritten(3), "a top and 4,096 files")
build("build-257-mounts-right", source(of_mounts(257)), unwritten(3), "257 mounts, each right")
build("build-4097-entries-right", source(tables.of_entries(4097)), unwritten(3), "4,097 entries, each right")

says("19.2, 19.6", "a record cut short isn't counted but breaks rule 3")
# Each would break rule 1, were it counted and its missing bytes not zero.
CUT = {"nodes": nodes((SYMLINK, 0, 0, 2**32 - 1)), "mounts": mounts((1, 0, 1)), "entries": entries((0, 65535, 2))}
for part, record in CUT.items():
    for length in range(1, len(record)):
        records = OF_ENDS._replace(**{part: getattr(OF_ENDS, part) + record[:length]})
        build(f"build-cut-{part}-{length}", records, unwritten(3), "", family=f"as many bytes behind the last of the {part}")
    for length in range(1, len(record)):
        records = OF_SMALLEST._replace(**{part: record[:length]})
        build(f"build-cut-{part}-{length}-alone", records, unwritten(3), "", family=f"as many bytes, and no whole record of the {part}")
build("build-cut-all", Source(*(getattr(OF_ENDS, part) + b"\1" for part in PARTS), OF_ENDS.text), unwritten(3), "a byte behind each part")
build("build-cut-alone", Source(b"\1", b"\1", b"\1", b""), unwritten(3), "a byte in each part")
build("build-cut-less", OF_ENDS._replace(nodes=OF_ENDS.nodes[:-1]), unwritten(3), "the last node without its last byte")
build("build-cut-at-65536", OF_LARGEST._replace(nodes=OF_LARGEST.nodes + CUT["nodes"][:11]), unwritten(3), "65,536 bytes in all, and 11 of a node")
build("build-cut-beyond", OF_LONGER._replace(entries=OF_LARGEST.entries + b"\1"), unwritten(1), "65,537 bytes in all, and one of an entry")
for part, count, most in [("nodes", 5459, 11), ("mounts", 8188, 7), ("entries", 8187, 7)]:
    records = OF_SMALLEST._replace(**{part: ZEROS[: PARTS[part] * count + most]})
    build(f"build-cut-{count}-{part}", records, unwritten(3), f"{count:,} {part}, 65,536 bytes in all, and {most} zero bytes")
for part, count, most in [("nodes", 4096, 11), ("mounts", 256, 7)]:
    records = source(trees.most())
    records = records._replace(**{part: getattr(records, part) + ZEROS[:most]})
    build(f"build-cut-{count}-{part}", records, unwritten(3), f"`most`, {count:,} {part} and {most} zero bytes")

says("19.6", "the lowest rule broken and the lowest record number breaking it (0 for rules 1 to 3)")
LONG_NAMES = entries((0, 65535, 0), (0, 65535, 0))
build("build-lowest-1-3-nodes", OF_SMALLEST._replace(nodes=b"", entries=LONG_NAMES), unwritten(1), "no node, and names of 131,070 bytes")
build("build-lowest-1-3-mounts", OF_ENDS._replace(mounts=ZEROS[:2056]).node(3, count=2**32 - 1), unwritten(1), "257 mounts, and a body of 2^32 - 1 bytes")
build("build-lowest-1-3-cut", OF_ENDS._replace(entries=OF_ENDS.entries + b"\1").node(3, count=70000), unwritten(1), "a byte behind the entries, and a body of 70,000 bytes")
build("build-lowest-1-4", OF_ENDS.node(0, kind=0).node(3, count=70000), unwritten(1), "node 0 of kind 0, and a body of 70,000 bytes")
build("build-lowest-1-5", OF_ENDS.entry(0, node=4, length=65535), unwritten(1), "entry 0 for node 4 of four, with a name of 65,535 bytes")
build("build-lowest-3-4", OF_ENDS._replace(mounts=OF_ENDS.mounts + b"\1").node(0, kind=0), unwritten(3), "a byte behind the mounts, and node 0 of kind 0")
build("build-lowest-3-5", OF_ENDS._replace(nodes=OF_ENDS.nodes + b"\1").entry(0, length=0), unwritten(3), "a byte behind the nodes, and an empty name")
build("build-lowest-3-6", OF_ENDS._replace(entries=OF_ENDS.entries + b"\1").mount(0, zero=1), unwritten(3), "a byte behind the entries, and mount 0 wrong")

# ---------------------------------------------------------------------------------------------------------------------------------
group(
    "Builds: rules 4 to 7",
    "Four nodes: 0 a link to `x`, 1 top, 2 a file, 3 a link to `y/`; entries \"a\", \"b\" and \"c\" for 0, 2 and 3. The text is `abcxy/`, or "
    "`xy/abc` where names are changed.",
)
says("19.7", "A tree that breaks a rule of document 01 is refused with that rule and record, ..")
build("build-ends", OF_ENDS, written(ENDS), "the four nodes as they are")
# A table that breaks rules 4 to 7 has nothing that a written image would mend, but for texts that make it too long.
TOO_LONG = {"byte-node-link-count-2", "byte-node-link-count-3"}
GIVEN = {
    "The table check, rule 4": "that breaks rule 4",
    "The table check, rule 5": "that breaks rule 5",
    "The table check, rule 6": "that breaks rule 6",
    "The table check, rule 7": "that breaks rule 7",
    "The table check, which rule and record": "that has more than one fault, and breaks none of rules 1 to 3",
    "The fields, byte by byte": "that breaks a rule from 4 on by one byte of a field",
}
for cases in [group for group in GROUPS if group.title in GIVEN]:
    for case in [case for sentence in cases.sentences for case in sentence.cases]:
        if case.kind == CHECK and case.answer[0] >= 4 and case.name not in TOO_LONG:
            family = f"the parts of each table above {GIVEN[cases.title]}"
            build(f"build-{case.name}", source(case.image), unwritten(*case.answer), "", family=family)
    for case in [case for sentence in cases.sentences for case in sentence.cases if case.name in TOO_LONG]:
        build(f"build-{case.name}", source(case.image), unwritten(1), f"the parts of {case.name}, whose body is over 65,536 bytes")

says("19.3, 19.7", "A directory's .. first is the sum of earlier directories' counts.")
build("build-first-first", OF_BENCH.node(0, first=1), unwritten(4, 0), "`bench`, node 0 with first 1")
build("build-first-more", OF_BENCH.node(1, first=2), unwritten(4, 1), "`bench`, node 1 with first 2 for 1")
build("build-first-empty", OF_BENCH.node(7, first=0), unwritten(4, 7), "`bench`, node 7, which is empty, with first 0 for 9")
build("build-first-last", OF_BENCH.node(8, first=8), unwritten(4, 8), "`bench`, node 8 with first 8 for 9")
build("build-first-high", OF_BENCH.node(8, first=65536 + 9), unwritten(4, 8), "`bench`, node 8 with first 65,545")
build("build-first-exchanged", OF_BENCH.node(1, first=9).node(8, first=1), unwritten(4, 1), "`bench`, nodes 1 and 8 with the first of each other")

says("19.7", "a link body or name reaching outside the caller's text breaks rule 4 or 5 at that record")
build(
    "build-whole-body",
    OF_ENDS.node(0, first=0, count=6),
    written(
        spelled(
            (4, 1, 3, 11, 111),
            nodes((SYMLINK, 0, 3, 6), (DIRECTORY, 1, 0, 3), (FILE, 0, 0, 0), (SYMLINK, 0, 9, 2)),
            mounts((1, 0, 1)),
            entries((0, 1, 0), (1, 1, 2), (2, 1, 3)),
            b"a" b"b" b"c" b"abcxy/" b"y/",
        )
    ),
    "node 0: the whole text as its body",
)
for record in (0, 3):
    for first, count in [(0, 7), (4, 3), (5, 2), (6, 0), (6, 1), (7, 0), (7, 1), (3 + 65536, 1), (3 + 2**24, 1), (2**31, 1)]:
        changed = OF_ENDS.node(record, first=first, count=count)
        family = f"node {record}: a body at a place, of a length, not inside"
        build(f"build-body-{record}-at-{first}-{count}", changed, unwritten(4, record), "", family=family)
    for first, count in [(2**32 - 1, 0), (2**32 - 1, 1), (2**32 - 1, 2), (2**32 - 2, 2), (2**32 - 1, 4), (2**32 - 4095, 4095)]:
        changed = OF_ENDS.node(record, first=first, count=count)
        family = f"node {record}: the same, the place so many bytes below 2^32"
        build(f"build-body-{record}-below-{2**32 - first}-{count}", changed, unwritten(4, record), "", family=family)
    for first in (0, 1, 2**32 - 1):
        changed = OF_ENDS.node(record, first=first, count=2**32 - 1)
        build(f"build-body-{record}-most-{first}", changed, unwritten(1), "", family=f"node {record}: a body at a place, of 2^32 - 1 bytes")
OF_NAMES = OF_ENDS.placed(b"xy/abc", [3, 4, 5], {0: 0, 3: 1})
build("build-names-last", OF_NAMES, written(ENDS), "the names behind the bodies, entry 2 at the text's end")
build(
    "build-name-to-the-end",
    OF_NAMES.entry(0, length=3),
    written(
        spelled(
            (4, 1, 3, 8, 108),
            nodes((SYMLINK, 0, 5, 1), (DIRECTORY, 1, 0, 3), (FILE, 0, 0, 0), (SYMLINK, 0, 6, 2)),
            mounts((1, 0, 1)),
            entries((0, 3, 0), (3, 1, 2), (4, 1, 3)),
            b"abc" b"b" b"c" b"x" b"y/",
        )
    ),
    'entry 0: "abc", to the end',
)
for record in (0, 2):
    for offset, length in [(3, 4), (5, 2), (6, 0), (6, 1), (7, 0), (7, 1), (5 + 65536, 1), (5 + 2**24, 1), (2**31, 1)]:
        changed = OF_NAMES.entry(record, offset=offset, length=length)
        family = f"entry {record}: a name at a place, of a length, not inside"
        build(f"build-name-{record}-at-{offset}-{length}", changed, unwritten(5, record), "", family=family)
    for offset, length in [(2**32 - 1, 0), (2**32 - 1, 1), (2**32 - 1, 2), (2**32 - 3, 3), (2**32 - 1, 5), (2**32 - 255, 255)]:
        changed = OF_NAMES.entry(record, offset=offset, length=length)
        family = f"entry {record}: the same, the place so many bytes below 2^32"
        build(f"build-name-{record}-below-{2**32 - offset}-{length}", changed, unwritten(5, record), "", family=family)
build("build-no-text", OF_ENDS._replace(text=b""), unwritten(4, 0), "no text")
build("build-no-text-names", OF_NAMES._replace(text=b"xy/"), unwritten(5, 0), "a text that has the bodies alone")
build("build-no-text-first-name", OF_NAMES._replace(text=b"xy/a"), unwritten(5, 1), "and the name of entry 0")
build("build-no-text-last-name", OF_NAMES._replace(text=b"xy/ab"), unwritten(5, 2), "and that of entry 1")
build("build-no-text-last-body", OF_ENDS._replace(text=b"abcxy"), unwritten(4, 3), "a text without the last byte of the last body")

says("19.7, 4.8, 4.9", "the lowest rule broken and the lowest record number breaking it")
build("build-outside-4-5", OF_ENDS.node(3, first=5).entry(0, offset=6), unwritten(4, 3), "node 3's body and entry 0's name outside")
build("build-outside-two-bodies", OF_ENDS.node(0, first=6).node(3, first=5), unwritten(4, 0), "both bodies outside")
build("build-outside-two-names", OF_ENDS.entry(1, offset=6).entry(2, offset=6), unwritten(5, 1), "the names of entries 1 and 2 outside")
build("build-outside-behind-kind", OF_ENDS.node(2, kind=5).node(3, first=5), unwritten(4, 2), "node 2 of kind 5, node 3's body outside")
build("build-outside-before-kind", OF_ENDS.node(2, kind=5).node(0, first=6), unwritten(4, 0), "node 0's body outside, node 2 of kind 5")
build("build-outside-before-sum", OF_ENDS.node(1, count=2).node(3, first=5), unwritten(4, 3), "node 3's body outside, counts that sum to 2 of 3")
build("build-outside-behind-order", OF_ENDS.entry(1, offset=0).entry(2, offset=6), unwritten(5, 1), 'entry 1 "a" too, entry 2\'s name outside')
build("build-outside-before-order", OF_ENDS.entry(0, offset=6).entry(2, offset=1), unwritten(5, 0), 'entry 0\'s name outside, entry 2 "b" too')
build("build-outside-4-6", OF_ENDS.node(3, first=5).mount(0, zero=1), unwritten(4, 3), "node 3's body outside, mount 0 wrong")
build("build-outside-5-6", OF_ENDS.entry(2, offset=6).mount(0, zero=1), unwritten(5, 2), "entry 2's name outside, mount 0 wrong")
build("build-outside-5-7", OF_ENDS.node(2, kind=MAGIC, count=9).entry(2, offset=6), unwritten(5, 2), "entry 2's name outside, a magic link to node 9")

says("19.7", 'names strictly ascending bytewise within a directory; .. no zero byte or "/", not "." or ".."')
build("build-one-name-twice", OF_ENDS.entry(2, offset=1), unwritten(5, 2), "entries 1 and 2 with one place in the text")
build("build-equal-names", OF_ENDS._replace(text=b"abbxy/"), unwritten(5, 2), "the same with two places")
build("build-name-slash", OF_ENDS.entry(2, offset=4, length=2), unwritten(5, 2), "entry 2: `y/`, node 3's body")
build("build-name-dot", OF_TWICE.entry(0, offset=3), unwritten(5, 0), 'entry 0: ".", of a body `..`')
build("build-name-dots", OF_TWICE.entry(0, offset=3, length=2), unwritten(5, 0), 'entry 0: "..", that body')
build("build-zero-in-gap", OF_ENDS._replace(text=b"abcxy/\0"), written(ENDS), "a zero byte behind the text that is used")
build("build-zero-in-body", OF_ENDS._replace(text=b"abcxy\0"), unwritten(4, 3), "a zero byte last in the last body")
build("build-zero-in-name", OF_ENDS._replace(text=b"ab\0xy/"), unwritten(5, 2), "a zero byte for the last name")

# ---------------------------------------------------------------------------------------------------------------------------------
group("Builds: the buffer")
says("19.8, 19.9, 19.10", "a buffer too small with ERANGE (34) after that; a refusal leaves the output buffer as it was, and bytes beyond an image are not touched.")
ABOUT = {"smallest": "the smallest image", "narrow": "`narrow`", "bench": "`bench`", "largest": "the image of 65,536 bytes"}
for name, parts, image in [("smallest", OF_SMALLEST, SMALLEST), ("narrow", OF_NARROW, NARROW), ("bench", SHARED, BENCH), ("largest", OF_LARGEST, LARGEST)]:
    length = len(image)
    for room in [0, 1, 19, 20, length - 2, length - 1]:
        build(f"build-room-{name}-{room}", parts, short(length), "", room=room, family=f"{ABOUT[name]} in a buffer of so many bytes")
    for room in [length, length + 1, length + 2]:
        build(f"build-room-{name}-{room}", parts, written(image), "", room=room, family=f"{ABOUT[name]} in one that is long enough")

says("19.8", "A tree that breaks a rule of document 01 is refused with that rule and record, a buffer too small with ERANGE (34) after that;")
for rule, parts, answer in [
    (1, OF_LONGER, unwritten(1)),
    (3, OF_BENCH._replace(nodes=OF_BENCH.nodes + b"\1"), unwritten(3)),
    (4, OF_BENCH.node(11, parent=1), unwritten(4, 11)),
    (5, OF_BENCH.entry(9, length=0), unwritten(5, 9)),
    (6, OF_BENCH.mount(1, zero=1), unwritten(6, 1)),
    (7, OF_BENCH.node(10, first=9), unwritten(7, 10)),
]:
    for room in [0, 20, 315]:
        family = f"a tree that breaks rule {rule}, a buffer of so many bytes"
        build(f"build-short-rule-{rule}-{room}", parts, answer, "", room=room, family=family)
build("build-short-nothing", NOTHING, unwritten(3), "no part has a byte", room=0)
build("build-short-body-outside", OF_ENDS.node(3, first=5), unwritten(4, 3), "a body outside the text", room=0)
build("build-short-name-outside", OF_ENDS.entry(2, offset=6), unwritten(5, 2), "a name outside the text", room=0)
