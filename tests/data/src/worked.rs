//! The list of worked cases: table checks, calls, sequences of calls on descriptors, lookups,
//! and builds, whose answers were worked out by hand. tests/cases writes it, as the input of
//! the program crates/cases, which says how it is laid out.

use crate::fields::get;
use crate::hex;
use crate::sequence::{written, Open, Step};
use std::fmt;
use std::fs::File;
use std::io::Read;

/// Where the list stands, seen from a package in a folder of the repository.
pub const LIST: &str = "crates/cases/stdin";

const RECORD: usize = 100;
/// The program has room for no more.
const MOST: u64 = 2 << 20;

#[derive(Clone, Debug, PartialEq)]
pub struct Worked {
    pub name: String,
    /// Empty for a build, which has parts instead.
    pub image: Vec<u8>,
    pub asked: Asked,
    /// Rule and record of a check or a start; errno (0 if found or done), detail, mount,
    /// node, components and links of a call, and of one on descriptors the number given;
    /// errno, entry, node and names compared of a lookup; errno (0 if written), rule, record
    /// and bytes of a build.
    pub expected: Vec<u64>,
}

/// What a case asks for.
#[derive(Clone, Debug, PartialEq)]
pub enum Asked {
    Check,
    Call(Call),
    /// The last of some calls on descriptors that were started over the image; with no
    /// call, the start.
    Sequence(Vec<Step>),
    Lookup(Lookup),
    Build(Build),
}

#[derive(Clone, Debug, PartialEq)]
pub struct Call {
    pub mount: u64,
    pub node: u64,
    pub mark: bool,
    pub path: Vec<u8>,
    pub how: Vec<u8>,
}

/// A name that is looked up in the directory `node`.
#[derive(Clone, Debug, PartialEq)]
pub struct Lookup {
    pub node: u64,
    pub name: Vec<u8>,
}

/// Four parts that an image is built from, into a buffer of `room` bytes.
#[derive(Clone, Debug, PartialEq)]
pub struct Build {
    pub nodes: Vec<u8>,
    pub mounts: Vec<u8>,
    pub entries: Vec<u8>,
    pub text: Vec<u8>,
    pub room: u64,
    /// The image that the buffer must begin with afterwards; empty where the build is
    /// refused.
    pub written: Vec<u8>,
}

/// The list in a file. The error is one line that names the file.
pub fn read_file(file: &str) -> Result<Vec<Worked>, String> {
    let mut bytes = Vec::new();
    File::open(file)
        .and_then(|opened| opened.take(MOST + 1).read_to_end(&mut bytes))
        .map_err(|error| format!("cannot read {file}: {error}"))?;
    read(&bytes).map_err(|fault| format!("{file} is no list of cases: {fault}"))
}

/// The list in bytes.
pub fn read(list: &[u8]) -> Result<Vec<Worked>, String> {
    if list.len() as u64 > MOST {
        return Err("it has more than 2 MiB".into());
    }
    let count = get(list, 0, 4).ok_or("it is cut off")? as usize;
    if count == 0 {
        return Err("it has none".into());
    }
    let mut started = None;
    let mut case = |i| {
        let record = Record { list, at: 4 + RECORD * i };
        record.read(&mut started).ok_or(format!("case {i} is wrong or cut off"))
    };
    (0..count).map(&mut case).collect()
}

/// The image that descriptors were started over, and the calls on them so far.
type Started = Option<(Vec<u8>, Vec<Step>)>;

/// A record of the list.
struct Record<'a> {
    list: &'a [u8],
    at: usize,
}

impl Record<'_> {
    fn number(&self, from: usize, width: usize) -> Option<u64> {
        get(self.list, self.at + from, width)
    }

    fn part(&self, from: usize) -> Option<Vec<u8>> {
        let start = self.number(from, 4)? as usize;
        let length = self.number(from + 4, 4)? as usize;
        self.list.get(start..start + length).map(<[u8]>::to_vec)
    }

    fn mark(&self) -> Option<bool> {
        self.number(36, 4).filter(|mark| *mark <= 1).map(|mark| mark == 1)
    }

    fn read(&self, started: &mut Started) -> Option<Worked> {
        let (image, (asked, count)) = match self.number(0, 4)? {
            9 => (Vec::new(), (Asked::Build(self.build()?), 4)),
            kind => {
                // Only a build has a text and an image to be written.
                self.zero(&[(88, 4), (96, 4)])?;
                let image = self.part(4)?;
                let asked = self.asked(kind, &image, started)?;
                (image, asked)
            }
        };
        let mut expected =
            (0..7).map(|i| self.number(56 + 4 * i, 4)).collect::<Option<Vec<u64>>>()?;
        let unused = expected.split_off(count);
        let name = String::from_utf8(self.part(28)?).ok()?;
        let worked = Worked { name, image, asked, expected };
        unused.iter().all(|number| *number == 0).then_some(worked)
    }

    /// What is asked over an image, and how many numbers its answer has.
    fn asked(&self, kind: u64, image: &[u8], started: &mut Started) -> Option<(Asked, usize)> {
        Some(match kind {
            1 => (Asked::Check, 2),
            2 => (Asked::Call(self.call()?), 6),
            3 => {
                *started = Some((image.to_vec(), Vec::new()));
                (Asked::Sequence(Vec::new()), 2)
            }
            8 => (Asked::Lookup(self.lookup()?), 4),
            kind => {
                let step = self.step(kind)?;
                let (_, steps) = started.as_mut().filter(|(over, _)| *over == image)?;
                steps.push(step);
                (Asked::Sequence(steps.clone()), 7)
            }
        })
    }

    /// Something if these numbers, by place and width, are all zero.
    fn zero(&self, numbers: &[(usize, usize)]) -> Option<()> {
        numbers.iter().all(|(from, width)| self.number(*from, *width) == Some(0)).then_some(())
    }

    fn call(&self) -> Option<Call> {
        Some(Call {
            mount: self.number(40, 8)?,
            node: self.number(48, 8)?,
            mark: self.mark()?,
            path: self.part(12)?,
            how: self.part(20)?,
        })
    }

    /// A lookup; its name stands where a call has its path, and nothing where a call has more.
    fn lookup(&self) -> Option<Lookup> {
        self.zero(&[(24, 4), (36, 4), (40, 8)])?;
        Some(Lookup { node: self.number(48, 8)?, name: self.part(12)? })
    }

    /// A build; its records stand where a call has image, path and open_how, the length of
    /// the buffer where one has its mount, and nothing where one has mark and node.
    fn build(&self) -> Option<Build> {
        self.zero(&[(36, 4), (48, 8)])?;
        Some(Build {
            nodes: self.part(4)?,
            mounts: self.part(12)?,
            entries: self.part(20)?,
            text: self.part(84)?,
            room: self.number(40, 8)?,
            written: self.part(92)?,
        })
    }

    /// A call on descriptors; its number stands where a handle has its mount.
    fn step(&self, kind: u64) -> Option<Step> {
        let number = self.number(40, 8)?;
        match kind {
            4 => Some(Step::Open(Open {
                number,
                mark: self.mark()?,
                path: self.part(12)?,
                how: self.part(20)?,
                ..Open::default()
            })),
            5 => Some(Step::Dup(number)),
            6 => Some(Step::Close(number)),
            7 => Some(Step::SetMark(number)),
            _ => None,
        }
    }
}

/// The case as the arguments of `compare replay`.
impl fmt::Display for Worked {
    fn fmt(&self, f: &mut fmt::Formatter) -> fmt::Result {
        match &self.asked {
            Asked::Check => f.write_str(&check_arguments(&self.image)),
            Asked::Call(call) => {
                let handle = (call.mount, call.node, call.mark);
                f.write_str(&call_arguments(&self.image, handle, &call.path, &call.how))
            }
            Asked::Sequence(steps) => f.write_str(&sequence_arguments(&self.image, steps)),
            Asked::Lookup(Lookup { node, name }) => {
                f.write_str(&lookup_arguments(&self.image, *node, name))
            }
            Asked::Build(Build { nodes, mounts, entries, text, room, .. }) => {
                f.write_str(&build_arguments(nodes, mounts, entries, text, *room))
            }
        }
    }
}

/// A table check as the arguments of `compare replay`.
pub fn check_arguments(image: &[u8]) -> String {
    format!("--image {}", argument(image))
}

/// A call, with its handle's mount, node and mark, as the arguments of
/// `compare replay`.
pub fn call_arguments(
    image: &[u8],
    (mount, node, mark): (u64, u64, bool),
    path: &[u8],
    how: &[u8],
) -> String {
    let (image, path, how) = (argument(image), argument(path), argument(how));
    let mark = u8::from(mark);
    format!("--image {image} --mount {mount} --node {node} --mark {mark} --path {path} --how {how}")
}

/// Calls on descriptors that were started over an image, as the arguments of
/// `compare replay`.
pub fn sequence_arguments(image: &[u8], steps: &[Step]) -> String {
    format!("--image {} --sequence {}", argument(image), quoted(written(steps)))
}

/// A lookup of a name in the directory `node`, as the arguments of `compare replay`.
pub fn lookup_arguments(image: &[u8], node: u64, name: &[u8]) -> String {
    format!("--image {} --node {node} --name {}", argument(image), argument(name))
}

/// A build into a buffer of `room` bytes, as the arguments of `compare replay`.
pub fn build_arguments(
    nodes: &[u8],
    mounts: &[u8],
    entries: &[u8],
    text: &[u8],
    room: u64,
) -> String {
    let [nodes, mounts, entries, text] = [nodes, mounts, entries, text].map(argument);
    format!("--nodes {nodes} --mounts {mounts} --entries {entries} --text {text} --room {room}")
}

/// The bytes as one argument.
fn argument(bytes: &[u8]) -> String {
    quoted(hex(bytes))
}

/// A text as one argument, also where it is empty.
fn quoted(text: String) -> String {
    if text.is_empty() {
        "''".into()
    } else {
        text
    }
}

#[cfg(test)]
mod tests {
    use super::*;
    use crate::fields::{put, set};

    fn list() -> Vec<u8> {
        std::fs::read(format!("{}/../../{LIST}", env!("CARGO_MANIFEST_DIR"))).unwrap()
    }

    #[test]
    fn the_list_is_read() {
        let cases = read(&list()).unwrap();
        let first = &cases[0];
        assert_eq!((&first.name[..], &first.expected[..]), ("P1", &[0, 255, 0, 3, 2, 0][..]));
        let Asked::Call(call) = &first.asked else { panic!("P1 is no call") };
        assert_eq!(
            (call.mount, call.node, call.mark, &call.path[..]),
            (0, 1, false, &b"cal/tare"[..])
        );
        assert_eq!(call.how, crate::how(0, 0));
        assert!(first
            .to_string()
            .contains(" --node 1 --mark 0 --path 63616c2f74617265 --how 0000"));
        let check = cases.iter().find(|case| case.asked == Asked::Check).unwrap();
        assert_eq!(check.expected.len(), 2);
        let lookup = cases.iter().find(|case| case.name == "lookup-middle").unwrap();
        let named = Lookup { node: 2, name: b"loop".to_vec() };
        assert_eq!(
            (&lookup.asked, &lookup.expected[..]),
            (&Asked::Lookup(named), &[0, 5, 6, 1][..])
        );
        let build = cases.iter().find(|case| case.name == "build-room-bench-317").unwrap();
        assert_eq!((&build.image[..], &build.expected[..]), (&[][..], &[0, 0, 0, 316][..]));
        let Asked::Build(asked) = &build.asked else { panic!("it is no build") };
        assert_eq!(asked.text, b"../../lab/cal/tare/upoolooprunfdabs");
        assert_eq!((asked.room, asked.written.len()), (317, 316));
    }

    /// A record of a kind over the image, with a number, and expected numbers from 1 on.
    fn described(kind: u64, image: (usize, usize), number: u64, expected: usize) -> Vec<u8> {
        let mut record = vec![0; RECORD];
        let fields = [(0, kind as usize), (4, image.0), (8, image.1), (40, number as usize)];
        for (at, value) in fields.into_iter().chain((0..expected).map(|i| (56 + 4 * i, i + 1))) {
            set(&mut record, at, 4, value);
        }
        record
    }

    /// A list of records, each by kind, number and how many are expected, over two bytes.
    fn list_of(kinds: &[(u64, u64, usize)]) -> Vec<u8> {
        let mut list = Vec::new();
        put(&mut list, kinds.len(), 4);
        let image = 4 + RECORD * kinds.len();
        for (kind, number, expected) in kinds {
            list.extend(described(*kind, (image, 2), *number, *expected));
        }
        list.extend(b"im");
        list
    }

    #[test]
    fn a_sequence_has_the_calls_before_it() {
        // A check between the calls of a sequence does not end it, another start does.
        let kinds = [(3, 0, 2), (5, 0, 7), (1, 0, 2), (6, 9, 7), (3, 0, 2), (7, 64, 7), (4, 3, 7)];
        let cases = read(&list_of(&kinds)).unwrap();
        let open = Step::Open(Open { number: 3, ..Open::default() });
        let asked = [
            Asked::Sequence(vec![]),
            Asked::Sequence(vec![Step::Dup(0)]),
            Asked::Check,
            Asked::Sequence(vec![Step::Dup(0), Step::Close(9)]),
            Asked::Sequence(vec![]),
            Asked::Sequence(vec![Step::SetMark(64)]),
            Asked::Sequence(vec![Step::SetMark(64), open]),
        ];
        assert!(cases.iter().map(|case| &case.asked).eq(&asked));
        assert_eq!(cases[0].expected, [1, 2]);
        assert_eq!(cases[6].expected, [1, 2, 3, 4, 5, 6, 7]);
        assert_eq!(cases[0].to_string(), "--image 696d --sequence ''");
        assert_eq!(cases[6].to_string(), "--image 696d --sequence set_mark:64,open:3:0::");
    }

    #[test]
    fn a_sequence_that_is_wrong_is_refused() {
        // Without a start; an unknown kind; more numbers than a start has.
        for kinds in [&[(5, 0, 7)][..], &[(3, 0, 2), (10, 0, 7)], &[(3, 0, 3)]] {
            assert!(read(&list_of(kinds)).is_err(), "{kinds:?}");
        }
        // A call over another image than its start's.
        let mut list = list_of(&[(3, 0, 2), (5, 0, 7)]);
        set(&mut list, 4 + RECORD + 8, 4, 1);
        assert_eq!(read(&list).unwrap_err(), "case 1 is wrong or cut off");
    }

    #[test]
    fn a_lookup_has_its_node_and_name() {
        // It leaves a sequence as it is. Its node stands behind the number, and the name is
        // the image's second byte.
        let mut list = list_of(&[(3, 0, 2), (8, 0, 4), (5, 0, 7), (8, 0, 0)]);
        let [record, unnamed] = [1, 3].map(|i| 4 + RECORD * i);
        let end = list.len();
        for (at, width, number) in
            [(record + 12, 4, end - 1), (record + 16, 4, 1), (record + 48, 8, (1 << 32) + 1)]
        {
            set(&mut list, at, width, number);
        }
        let cases = read(&list).unwrap();
        let lookup = Lookup { node: (1 << 32) + 1, name: b"m".to_vec() };
        assert_eq!(cases[1].asked, Asked::Lookup(lookup));
        assert_eq!(cases[1].expected, [1, 2, 3, 4]);
        assert_eq!(cases[1].to_string(), "--image 696d --node 4294967297 --name 6d");
        assert_eq!(cases[2].asked, Asked::Sequence(vec![Step::Dup(0)]));
        assert_eq!(cases[3].asked, Asked::Lookup(Lookup { node: 0, name: Vec::new() }));
        assert_eq!(cases[3].to_string(), "--image 696d --node 0 --name ''");
        // What only other kinds have: an open_how, a mark, a mount, a fifth number, a text, an
        // image to be written.
        for (at, number) in [(24, 1), (36, 1), (40, 1), (56 + 16, 1), (88, 1), (96, 1)] {
            let mut wrong = list.clone();
            set(&mut wrong, unnamed + at, 4, number);
            assert_eq!(read(&wrong).unwrap_err(), "case 3 is wrong or cut off", "{at}");
        }
    }

    #[test]
    fn a_build_has_its_parts() {
        // The parts are the bytes `im` and `m`, `i`, `m`, nothing, and `im` to be written. The
        // build leaves a sequence over `im` as it is.
        let mut list = list_of(&[(3, 0, 2), (9, 1 << 16, 4), (5, 0, 7)]);
        let (record, end) = (4 + RECORD, list.len());
        for (part, from, length) in
            [(12, end - 1, 1), (20, end - 2, 1), (84, end - 1, 1), (92, end - 2, 2)]
        {
            set(&mut list, record + part, 4, from);
            set(&mut list, record + part + 4, 4, length);
        }
        let cases = read(&list).unwrap();
        let [nodes, mounts, entries, text, written] =
            [&b"im"[..], b"m", b"i", b"m", b"im"].map(<[u8]>::to_vec);
        let build = Build { nodes, mounts, entries, text, room: 1 << 16, written };
        assert_eq!(cases[1].asked, Asked::Build(build));
        assert_eq!((&cases[1].image[..], &cases[1].expected[..]), (&[][..], &[1, 2, 3, 4][..]));
        assert_eq!(
            cases[1].to_string(),
            "--nodes 696d --mounts 6d --entries 69 --text 6d --room 65536"
        );
        assert_eq!(cases[2].asked, Asked::Sequence(vec![Step::Dup(0)]));
        // A mark, a node, a fifth number, and parts that reach outside.
        let outside = [4, 12, 20, 84, 92].map(|part| (part + 4, end));
        for (at, number) in [(36, 1), (48, 1), (52, 1), (56 + 16, 1)].into_iter().chain(outside) {
            let mut wrong = list.clone();
            set(&mut wrong, record + at, 4, number);
            assert_eq!(read(&wrong).unwrap_err(), "case 1 is wrong or cut off", "{at}");
        }
        assert_eq!(
            build_arguments(b"", b"", b"", b"", 0),
            "--nodes '' --mounts '' --entries '' --text '' --room 0"
        );
    }

    #[test]
    fn other_bytes_are_refused() {
        let list = list();
        let short = 4 + RECORD - 1;
        let wrong = [&[][..], &[1], &[0; 4], &[0; 4_000], &list[..short], &list[..list.len() - 1]];
        for bytes in wrong {
            assert!(read(bytes).is_err(), "{} bytes", bytes.len());
        }
        assert!(read(&[&list[..], &vec![0; MOST as usize]].concat()).is_err());
        let folder = env!("CARGO_MANIFEST_DIR");
        for file in [folder, &format!("{folder}/nothing"), &format!("{folder}/Cargo.toml")] {
            let fault = read_file(file).unwrap_err();
            assert!(fault.contains(file) && !fault.contains('\n'), "{fault}");
        }
    }

    #[test]
    fn the_bench_tree_is_the_lists() {
        assert_eq!(read(&list()).unwrap()[0].image, crate::BENCH_TREE);
    }
}
