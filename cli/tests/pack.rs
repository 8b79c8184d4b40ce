//! Real directories, packed: compared with what `find` says of them.

mod common;

#[path = "common/json.rs"]
mod json;

use common::{answered, error, program, Named};
use json::Json;
use std::collections::{BTreeMap, BTreeSet};
use std::ffi::OsStr;
use std::fs::{self, File, Permissions};
use std::io;
use std::os::fd::AsRawFd;
use std::os::unix::ffi::OsStrExt;
use std::os::unix::fs::{symlink, PermissionsExt};
use std::os::unix::net::UnixListener;
use std::path::{Path, PathBuf};
use std::process::{Command, Output};

/// A folder that is gone at the end of the test, with all that is in it.
struct Folder(Named);

impl Folder {
    fn new() -> Folder {
        let folder = Named::new();
        // A run that was stopped may have left it.
        remove(&folder.0);
        fs::create_dir(&folder.0).unwrap();
        Folder(folder)
    }

    /// A path in it.
    fn at(&self, name: impl AsRef<[u8]>) -> PathBuf {
        self.0 .0.join(OsStr::from_bytes(name.as_ref()))
    }

    fn directory(&self, name: impl AsRef<[u8]>) -> PathBuf {
        let path = self.at(name);
        fs::create_dir_all(&path).unwrap();
        path
    }

    fn file(&self, name: impl AsRef<[u8]>) {
        File::create_new(self.at(name)).unwrap();
    }

    fn link(&self, name: impl AsRef<[u8]>, body: impl AsRef<[u8]>) {
        symlink(OsStr::from_bytes(body.as_ref()), self.at(name)).unwrap();
    }

    /// Names in it, in order.
    fn names(&self) -> Vec<String> {
        let names = fs::read_dir(&self.0 .0).unwrap();
        let mut names: Vec<String> =
            names.map(|entry| entry.unwrap().file_name().into_string().unwrap()).collect();
        names.sort();
        names
    }

    fn path(&self) -> &str {
        self.0.path()
    }
}

impl Drop for Folder {
    fn drop(&mut self) {
        remove(&self.0 .0);
    }
}

/// By a program that is not afraid of depth.
fn remove(path: &Path) {
    Command::new("rm").arg("-rf").arg(path).status().unwrap();
}

fn pack(directory: &Path, more: &[&OsStr]) -> Output {
    program().arg("pack").arg(directory).args(more).output().unwrap()
}

/// The image of a directory of which nothing is left out.
fn packed(directory: &Path) -> Vec<u8> {
    let output = pack(directory, &[]);
    let told = String::from_utf8_lossy(&output.stderr);
    assert_eq!((output.status.code(), &*told), (Some(0), ""), "{directory:?}");
    output.stdout
}

fn shown(image: &[u8]) -> String {
    let (status, tree) = common::answer_to(image, ["show", "-"]);
    assert_eq!(status, 0);
    tree
}

/// A tree as a set: of each path what it is, and its body, if it is a link. And which paths lead
/// to one object.
#[derive(Default)]
struct Seen {
    objects: BTreeSet<(Vec<u8>, char, Vec<u8>)>,
    same: BTreeMap<Vec<u8>, BTreeSet<Vec<u8>>>,
}

impl Seen {
    fn add(&mut self, path: &[u8], kind: char, body: &[u8], identity: Vec<u8>) {
        self.objects.insert((path.into(), kind, body.into()));
        self.same.entry(identity).or_default().insert(path.into());
    }

    /// What `find` sees, of what a table can hold.
    fn by_find(directory: &Path) -> io::Result<Seen> {
        let mut find = Command::new("find");
        let format = r"%P\0%y\0%l\0%D:%i\0";
        let output = find.arg(directory).args(["-mindepth", "1", "-printf", format]).output()?;
        let mut seen = Seen::default();
        let fields: Vec<&[u8]> = output.stdout.split(|byte| *byte == 0).collect();
        for line in fields.chunks_exact(4) {
            if [b"d", b"f", b"l"].iter().any(|kind| line[1] == *kind) {
                seen.add(line[0], line[1][0].into(), line[2], line[3].into());
            }
        }
        Ok(seen)
    }

    /// What is in the main tree of an image.
    fn by_show(image: &[u8]) -> Seen {
        let (status, text) = common::answer_to(image, ["show", "-", "--json"]);
        assert_eq!(status, 0);
        let json = Json::read(&text);
        let nodes = json.list("nodes");
        let mut seen = Seen::default();
        let mut waiting = vec![(Vec::new(), 0)];
        while let Some((path, number)) = waiting.pop() {
            let node = &nodes[number];
            let (kind, body) = match node.text("kind") {
                "directory" => ('d', Vec::new()),
                "link" => ('l', node.bytes("body")),
                _ => ('f', Vec::new()),
            };
            if number > 0 {
                seen.add(&path[1..], kind, &body, number.to_string().into());
            }
            if kind == 'd' {
                let below = |name: &[u8]| [&path, &b"/"[..], name].concat();
                let entries = node.list("entries").iter();
                waiting.extend(entries.map(|e| (below(&e.bytes("name")), e.number("node"))));
            }
        }
        seen
    }
}

/// That an image has what `find` sees in a directory, if there is a `find`.
fn is_as_found(image: &[u8], directory: &Path) {
    let Ok(found) = Seen::by_find(directory) else {
        return eprintln!("skipped: there is no find to compare with");
    };
    let shown = Seen::by_show(image);
    let text = |bytes: &[u8]| bytes.escape_ascii().to_string();
    let object = |(path, kind, body): &(Vec<u8>, char, Vec<u8>)| {
        format!("{kind} {} -> {}", text(path), text(body))
    };
    is_same(&found.objects, &shown.objects, object);
    let groups = |seen: Seen| seen.same.into_values().collect::<BTreeSet<_>>();
    let group = |paths: &BTreeSet<Vec<u8>>| {
        paths.iter().map(|path| text(path)).collect::<Vec<_>>().join(", ")
    };
    is_same(&groups(found), &groups(shown), group);
}

/// That two sets are equal. What only one of them has is told.
fn is_same<T: Ord>(found: &BTreeSet<T>, shown: &BTreeSet<T>, text: impl Fn(&T) -> String) {
    let list = |only: Vec<&T>| only.into_iter().map(&text).collect::<Vec<_>>().join("\n");
    let only_found = list(found.difference(shown).collect());
    let only_shown = list(shown.difference(found).collect());
    assert!(found == shown, "only found:\n{only_found}\nonly shown:\n{only_shown}");
}

/// Names and bodies of all sorts.
fn awkward() -> Folder {
    let folder = Folder::new();
    let long = [b'n'; 255];
    let names: [&[u8]; 10] = [
        b"a\nb",
        b"\xff\xfe",
        b"a b",
        b"\"q'",
        b"back\\slash",
        b"#",
        b"tree1:",
        b"mount1",
        b"...",
        &long,
    ];
    for name in names {
        folder.directory(name);
        folder.file([name, b"/", name].concat());
    }
    folder.directory("empty");
    folder.directory("far/below");
    add_links(&folder);
    let hard = [("a b/a b", "far/below/file"), ("ring", "far/link"), ("#/#", "second")];
    let link = |(first, second)| fs::hard_link(folder.at(first), folder.at(second)).unwrap();
    hard.into_iter().for_each(link);
    folder
}

fn add_links(folder: &Folder) {
    let links: [(&str, &[u8]); 10] = [
        ("loop", b"loop"),
        ("ring", b"rong"),
        ("rong", b"ring"),
        ("absolute", b"/etc/passwd"),
        ("dangling", b"no/such"),
        ("slash", b"empty/"),
        ("up", b"../../.."),
        ("root", b"/"),
        ("bytes", b"\xc3\x28 \n"),
        ("body", &[b'b'; 4_095]),
    ];
    for (name, body) in links {
        folder.link(name, body);
    }
}

/// Where there is room for so short a path alone.
fn socket(folder: &Folder, name: &str) {
    let open = File::open(&folder.0 .0).unwrap();
    let short = format!("/proc/self/fd/{}/{name}", open.as_raw_fd());
    UnixListener::bind(short).or_else(|_| UnixListener::bind(folder.at(name))).unwrap();
}

#[test]
fn an_image_has_what_is_there() {
    let folder = awkward();
    let image = packed(&folder.0 .0);
    is_as_found(&image, &folder.0 .0);
    assert_eq!(packed(&folder.0 .0), image);
    let ordered = common::answer_to(&image, ["canonical", "-", "--check"]);
    assert_eq!(ordered, (0, "canonical\n".into()));
    // The same tree in another place is the same image.
    let copy = Folder::new();
    let mut cp = Command::new("cp");
    let status = cp.arg("-a").arg(folder.at(".")).arg(&copy.0 .0).status().unwrap();
    assert!(status.success());
    assert_eq!(packed(&copy.0 .0), image);
}

#[test]
fn what_a_table_cannot_hold_is_told() {
    let (folder, new) = (awkward(), Named::new());
    let whole = packed(&folder.0 .0);
    assert!(Command::new("mkfifo").arg(folder.at("a b/p\np")).status().unwrap().success());
    socket(&folder, "socket");
    let output = pack(&folder.0 .0, &[]);
    assert_eq!((output.status.code(), output.stdout == whole), (Some(1), true));
    let path = folder.path();
    let told = format!(
        "ventolaire: left out: {path}/a b/p\\np: a FIFO\n\
         ventolaire: left out: {path}/socket: a socket\n\
         ventolaire: 2 left out: 1 socket, 1 FIFO\n"
    );
    assert_eq!(String::from_utf8(output.stderr).unwrap(), told);
    let more = ["-o", new.path(), "--json"].map(OsStr::new);
    let (status, text) = answered(pack(&folder.0 .0, &more));
    assert_eq!((status, fs::read(&new.0).unwrap() == whole), (1, true));
    let json = Json::read(&text);
    let left: Vec<(String, &str)> = json
        .list("left_out")
        .iter()
        .map(|left| (left.text("path").into(), left.text("reason")))
        .collect();
    assert_eq!(
        left,
        [(format!("{path}/a b/p\np"), "a FIFO"), (format!("{path}/socket"), "a socket")]
    );
    let counts = ["left_out_count", "mounts_as_directories", "mounts_as_files", "mounts"];
    assert_eq!(counts.map(|name| json.number(name)), [2, 0, 0, 1]);
    assert_eq!((json.text("file"), json.number("bytes")), (new.path(), whole.len()));
}

/// Nobody reads what is printed, and what is left out is told all the same.
#[test]
fn what_is_left_out_is_told_before_all_else() {
    let (folder, new) = (Folder::new(), Folder::new());
    socket(&folder, "socket");
    let image = new.at("image");
    let (reader, writer) = io::pipe().unwrap();
    drop(reader);
    let mut program = program();
    let program = program.arg("pack").arg(&folder.0 .0).arg("-o").arg(&image).stdout(writer);
    let output = program.output().unwrap();
    let told = String::from_utf8(output.stderr).unwrap();
    assert!(told.ends_with("/socket: a socket\nventolaire: 1 left out: 1 socket\n"), "{told}");
    assert_eq!((output.status.code(), fs::read(&image).unwrap().len()), (Some(1), 40));
}

#[test]
fn a_link_is_followed_to_the_directory_alone() {
    let folder = Folder::new();
    folder.directory("lab/cal");
    folder.file("lab/cal/tare");
    folder.link("lab/up", "..");
    folder.link("to", "lab");
    let image = packed(&folder.at("to"));
    assert_eq!(image, packed(&folder.at("lab")));
    assert_eq!(image, packed(&folder.at("lab/")));
    let lines = shown(&image);
    assert!(lines.ends_with("1  ├── cal/\n    2  │   └── tare\n    3  └── up -> ..\n"), "{lines}");
    assert_eq!(packed(&folder.directory("none")).len(), 40);
    let outcomes = [
        ("lab/cal/tare", "Not a directory (os error 20)"),
        ("lab/none", "No such file or directory (os error 2)"),
    ];
    for (name, reason) in outcomes {
        let path = folder.at(name);
        let path = path.to_str().unwrap();
        assert_eq!(error(["pack", path]), format!("cannot pack {path}: {reason}"));
    }
    assert_eq!(error(["pack", ""]), "cannot pack '': No such file or directory (os error 2)");
}

/// No image without what is in a directory that cannot be read.
#[test]
fn what_cannot_be_read_ends_it() {
    let (folder, new) = (Folder::new(), Folder::new());
    let closed = folder.directory("lab/closed");
    fs::set_permissions(&closed, Permissions::from_mode(0o000)).unwrap();
    if fs::read_dir(&closed).is_ok() {
        return eprintln!("skipped: root may read every directory");
    }
    let output = format!("--output={}", new.at("image").display());
    let reason = "Permission denied (os error 13)";
    let message = format!("cannot pack {}: {reason}", closed.display());
    assert_eq!(error(["pack", folder.path(), &output]), message);
    assert_eq!(new.names(), Vec::<String>::new());
    fs::set_permissions(&closed, Permissions::from_mode(0o700)).unwrap();
}

#[test]
fn a_file_is_left_alone_or_replaced() {
    let folder = Folder::new();
    let lab = folder.directory("lab");
    folder.file("lab/run");
    let image = packed(&lab);
    let (file, lab) = (folder.at("image"), lab.to_str().unwrap());
    let file = file.to_str().unwrap();
    let told = format!("{file}: 2 nodes, 1 entry, 1 mount; {} bytes\n", image.len());
    let run = |more: &[&str]| program().args(["pack", lab, "-o", file]).args(more).output();
    assert_eq!(answered(run(&[]).unwrap()), (0, told.clone()));
    fs::write(file, b"old").unwrap();
    let there = "File exists (os error 17); --force replaces a file";
    assert_eq!(error(["pack", lab, "-o", file]), format!("cannot write {file}: {there}"));
    assert_eq!(fs::read(file).unwrap(), b"old");
    assert_eq!(answered(run(&["--force"]).unwrap()), (0, told));
    assert_eq!(fs::read(file).unwrap(), image);
    assert_eq!(folder.names(), ["image", "lab"]);
}

/// The builder's word, with the path on the system, and no file.
fn is_refused(directory: &Path, reason: &str) {
    let new = Folder::new();
    let output = format!("--output={}", new.at("image").display());
    let message = error(["pack", directory.to_str().unwrap(), &output]);
    assert_eq!(message, format!("cannot pack {}{reason}", directory.display()));
    assert_eq!(new.names(), Vec::<String>::new());
}

#[test]
fn limits_are_the_builder_s() {
    let folder = Folder::new();
    folder.directory("d");
    (0..2_619).for_each(|number| folder.file(format!("d/{number:05}")));
    let image = packed(&folder.0 .0);
    assert_eq!(image.len(), 20 + 8 + 12 + 21 + 25 * 2_619);
    is_as_found(&image, &folder.0 .0);
    folder.file("d/02619");
    let long = "the image would have 65561 bytes, over 65,536 (RULES 4.1)";
    is_refused(&folder.0 .0, &format!("/d/02619: rule 1 broken: {long}"));
    // Of more than 4,096 not all are read, and the same is refused.
    (2_620..5_000).for_each(|number| folder.file(format!("d/{number:05}")));
    let long = "the image would have 81986 bytes, over 65,536 (RULES 4.1)";
    is_refused(
        &folder.0 .0,
        &format!("/d/02619: rule 1 broken: {long}, with the rest not yet read"),
    );
}

/// Many names of one file: entries without nodes.
#[test]
fn entries_have_a_limit_of_their_own() {
    let folder = Folder::new();
    folder.file("0000");
    let name = |number: usize| format!("{number:04x}");
    let link = |number| fs::hard_link(folder.at("0000"), folder.at(name(number)));
    if (1..4_096).any(|number| link(number).is_err()) {
        return eprintln!("skipped: a file has fewer names here");
    }
    let image = packed(&folder.0 .0);
    is_as_found(&image, &folder.0 .0);
    link(4_096).unwrap();
    let reason = "rule 3 broken: there are 4097 entries, over 4,096 (RULES 4.3)";
    is_refused(&folder.0 .0, &format!("/1000: {reason}"));
}

/// A chain of directories, as deep as a path can be that is given.
fn chain(folder: &Folder, name: &str, depth: usize) -> PathBuf {
    folder.directory([name, &"/d".repeat(depth)].concat())
}

#[test]
fn a_tree_may_be_deep() {
    let folder = Folder::new();
    let depth = (4_000 - folder.path().len()) / 2;
    fs::write(chain(&folder, "a", depth).join("f"), b"").unwrap();
    let image = packed(&folder.at("a"));
    is_as_found(&image, &folder.at("a"));
    assert_eq!(image.len(), 40 + 21 * (depth + 1));
    // Deeper than a path leads: moved together of two.
    let bottom = chain(&folder, "b", depth);
    fs::rename(folder.at("a"), bottom.join("a")).unwrap();
    let top = folder.at("b");
    let top = top.to_str().unwrap();
    let message = error(["pack", top]);
    let reason = ": File name too long (os error 36)";
    assert!(message.starts_with(&format!("cannot pack {top}/d/d/d")), "{message}");
    assert!(message.ends_with(reason), "{message}");
}

/// Mounts of its own, where that is allowed: `$0` is the program, `$1` a folder.
const MOUNTS: &str = r#"
    set -e
    cd "$1"
    mkdir -p "d/a/x" "d/b" "d/disk 1" "d/view" "d/z"
    : >d/a/f; : >d/a/x/deep; : >d/g
    mount -t tmpfs none "d/disk 1"
    mkdir "d/disk 1/in" "d/disk 1/again"
    : >"d/disk 1/tare"
    mount -t tmpfs hidden "d/disk 1/in"
    : >"d/disk 1/in/hidden"
    mount -t tmpfs top "d/disk 1/in"
    : >"d/disk 1/in/seen"
    mount --bind "d/disk 1" "d/disk 1/again"
    mount --bind d/a d/view
    mount -t tmpfs none d/a/x
    : >d/a/x/cover
    mount --bind d/a/f d/g
    mount --bind d/a d/b
    mount -t tmpfs none d/z
    mkdir d/z/sub
    mount --bind d/z/sub d/z
    "$0" pack d -o plain
    "$0" pack d --mounts -o kept
    "$0" pack d -o told --json
    cmp plain told
"#;

/// The option by which `unshare` gives mounts of one's own, if it may.
fn unshare(folder: &Folder) -> Option<&'static str> {
    ["-m", "-rm"].into_iter().find(|option| {
        let mount = r#"mount -t tmpfs none "$0" && mkdir "$0/x" && mount --bind "$0" "$0/x""#;
        let words = [*option, "sh", "-c", mount, folder.path()];
        Command::new("unshare").args(words).output().is_ok_and(|done| done.status.success())
    })
}

#[test]
fn mounts_become_directories_or_stay() {
    let folder = Folder::new();
    let Some(option) = unshare(&folder) else {
        return eprintln!("skipped: no mounts are allowed here");
    };
    let script = [option, "sh", "-c", MOUNTS, env!("CARGO_BIN_EXE_ventolaire"), folder.path()];
    let output = Command::new("unshare").args(script).output().unwrap();
    assert!(output.status.success(), "{output:?}");
    let told = String::from_utf8(output.stderr).unwrap();
    let on_file = "1 mount on a file became a file; a table has mounts on directories alone";
    let lines = ["7 mounts became directories; --mounts keeps them", on_file, on_file];
    let lines = lines.map(|line| format!("ventolaire: {line}\n"));
    assert_eq!(told, lines.concat());
    let told = String::from_utf8(output.stdout).unwrap();
    let json = Json::read(told.lines().last().unwrap());
    let counts = ["mounts_as_directories", "mounts_as_files", "left_out_count"];
    assert_eq!(counts.map(|name| json.number(name)), [7, 1, 0]);
    let image = fs::read(folder.at("kept")).unwrap();
    assert_eq!(shown(&image), KEPT);
}

/// What was mounted twice shows what is on top. Where the mount on `d/a/x` hides a file, the two
/// mounts of `d/a` show it.
const KEPT: &str = "\
mounts
    0  root 0:0
    1  root 1:9, on 0:3
    2  root 2:1, on 0:5
    3  root 3:11, on 0:6
    4  root 4:1, on 0:7
    5  root 5:15, on 0:8
    6  root 6:11, on 3:12
    7  root 7:16, on 3:13
nodes
    0  /  [root of mount 0]
    1  ├── a/  [root of mount 2; root of mount 4]
    2  │   ├── f
    3  │   └── x/  [mount 1 covers 0:3]
    4  │       └── deep
    5  ├── b/  [mount 2 covers 0:5]
    6  ├── disk 1/  [mount 3 covers 0:6]
    2  ├── g
    7  ├── view/  [mount 4 covers 0:7]
    8  └── z/  [mount 5 covers 0:8]
    9  /  [root of mount 1]
   10  └── cover
   11  /  [root of mount 3; root of mount 6]
   12  ├── again/  [mount 6 covers 3:12]
   13  ├── in/  [mount 7 covers 3:13]
   14  └── tare
   15  /  [root of mount 5]
   16  /  [root of mount 7]
   17  └── seen
";
