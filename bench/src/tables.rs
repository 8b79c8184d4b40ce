//! The inputs: the trees, and the cases that are measured over them.

use crate::hostile;
use crate::plain::Handle;
use data::image::Tree;
use data::{how, BENCH_TREE};

/// One input and the answer it has to get.
pub struct Input {
    pub image: Vec<u8>,
    pub call: Call,
    pub expected: Numbers,
}

pub enum Call {
    Check,
    Resolve { handle: Handle, path: Vec<u8>, how: Vec<u8> },
}

/// An answer as the proved library writes it. Of the check: rule and record, 0
/// and 0 if accepted. Of the resolver: errno (0 if found), detail, mount, node,
/// components and links.
pub type Numbers = [u64; 6];

pub struct Case {
    pub name: &'static str,
    pub about: &'static str,
    pub build: fn() -> Input,
}

const CASES: &[Case] = &[
    Case { name: "check-bench", about: "the bench tree", build: || accepted(BENCH_TREE) },
    Case {
        name: "check-entries",
        about: "4,096 entries with short names",
        build: || accepted(&many_entries()),
    },
    Case {
        name: "check-long-names",
        about: "names of 250 bytes, alike for the first half",
        build: || accepted(&long_names()),
    },
    Case {
        name: "check-shared-names",
        about: "4,096 entries, most with names of 250 bytes that overlap in the text",
        build: || accepted(&shared_names()),
    },
    Case {
        name: "check-links",
        about: "3,000 symbolic links with bodies of 1 to 18 bytes",
        build: || accepted(&many_links()),
    },
    Case {
        name: "check-shared-bodies",
        about: "4,000 symbolic links with bodies of 1 to 4,095 bytes that overlap in the text",
        build: || accepted(&shared_bodies()),
    },
    Case {
        name: "check-deep",
        about: "a chain of 4,096 directories with a mount at its end",
        build: || accepted(&deep_chain()),
    },
    Case {
        name: "check-mounts",
        about: "256 mounts, all in mount 0",
        build: || accepted(&many_mounts()),
    },
    Case {
        name: "check-worst",
        about: "2,048 magic links over 256 mounts of a chain of 2,048 directories",
        build: || accepted(&magic_links(1_780)),
    },
    Case {
        name: "walk-tare",
        about: "cal/tare in the bench tree",
        build: || found(BENCH_TREE, LAB, "cal/tare", (0, 3), 2, 0),
    },
    Case {
        name: "walk-run",
        about: "pool/run in the bench tree, into a mount",
        build: || found(BENCH_TREE, LAB, "pool/run", (1, 9), 2, 0),
    },
    Case {
        name: "walk-abs",
        about: "cal/abs in the bench tree, an absolute link",
        build: || found(BENCH_TREE, LAB, "cal/abs", (0, 3), 5, 1),
    },
    Case {
        name: "walk-loop",
        about: "cal/loop in the bench tree, refused at the 41st link",
        build: || Input {
            expected: [40, 255, 0, 0, 42, 40],
            ..found(BENCH_TREE, LAB, "cal/loop", (0, 0), 0, 0)
        },
    },
    Case {
        name: "walk-root",
        about: "/lab in the bench tree, an absolute path",
        build: || found(BENCH_TREE, LAB, "/lab", (0, 1), 1, 0),
    },
    Case {
        name: "walk-root-tare",
        about: "/lab/cal/tare in the bench tree",
        build: || found(BENCH_TREE, LAB, "/lab/cal/tare", (0, 3), 3, 0),
    },
    Case {
        name: "walk-root-far",
        about: "/tare from a handle 3,000 directories down, beside 255 mounts",
        build: walk_root_far,
    },
    Case { name: "walk-deep", about: "1,000 components down", build: walk_deep },
    Case { name: "walk-dotdot", about: "500 times d/..", build: walk_dotdot },
    Case {
        name: "walk-tail",
        about: "40 links, each the last component of the body before",
        build: walk_tail,
    },
    Case {
        name: "walk-nested",
        about: "40 links, none the last component of its text",
        build: walk_nested,
    },
    Case {
        name: "walk-wide",
        about: "an early, a middle and a late name of 3,000",
        build: walk_wide,
    },
    Case {
        name: "walk-mounts",
        about: "into 255 mounts, each in the one before, and back out",
        build: walk_mounts,
    },
];

/// All cases: the common ones, and then the hostile tables.
pub fn cases() -> impl Iterator<Item = &'static Case> {
    CASES.iter().chain(hostile::CASES)
}

/// The input of the case of that name.
pub fn input(name: &str) -> Option<Input> {
    cases().find(|case| case.name == name).map(|case| (case.build)())
}

/// The handle of the bench tree's calls.
pub const LAB: u64 = 1;

/// The check of a table without fault.
pub fn accepted(image: impl Into<Vec<u8>>) -> Input {
    Input { image: image.into(), call: Call::Check, expected: [0; 6] }
}

/// A call from (0, `directory`) that finds a place, unrestricted.
pub fn found(
    image: impl Into<Vec<u8>>,
    directory: u64,
    path: &str,
    (mount, node): (usize, usize),
    components: u64,
    links: u64,
) -> Input {
    Input {
        image: image.into(),
        call: Call::Resolve {
            handle: Handle { mount: 0, node: directory, mark: false },
            path: path.as_bytes().to_vec(),
            how: how(0, 0),
        },
        expected: [0, 255, mount as u64, node as u64, components, links],
    }
}

/// Letters that look random and are the same on every run.
pub fn letters(len: usize) -> Vec<u8> {
    let mut state = 1_u32;
    let next = || {
        state = state.wrapping_mul(1_664_525).wrapping_add(1_013_904_223);
        b'a' + (state >> 24) as u8 % 26
    };
    std::iter::repeat_with(next).take(len).collect()
}

pub fn many_entries() -> Tree {
    let (mut tree, top) = Tree::mounted();
    let sizes: [usize; 12] = [1, 2, 3, 5, 8, 13, 21, 34, 55, 89, 144, 233];
    let directories: Vec<usize> =
        (0..81).map(|i| tree.named_directory(top, &format!("{i:02}"))).collect();
    let files: Vec<usize> = (0..1_300).map(|_| tree.file()).collect();

    let mut left = 4_096 - directories.len();
    for (i, &directory) in directories.iter().enumerate() {
        let is_last = i + 1 == directories.len();
        let size = if is_last { left } else { sizes[i % sizes.len()].min(left) };
        for j in 0..size {
            // Two or three digits and up to three letters.
            let name = format!("{j:02}{}", &"abc"[..j % 4]);
            tree.named(directory, &name, files[left % files.len()]);
            left -= 1;
        }
    }
    tree
}

pub fn long_names() -> Tree {
    let (mut tree, top) = Tree::mounted();
    let alike = "n".repeat(125);
    for i in 0..8 {
        let directory = tree.named_directory(top, &format!("{i}"));
        for j in 0..30 {
            tree.named_file(directory, &format!("{alike}{j:03}{}", "x".repeat(122)));
        }
    }
    tree
}

fn shared_names() -> Tree {
    let (mut tree, top) = Tree::mounted();
    let directories: Vec<usize> =
        (0..16).map(|i| tree.named_directory(top, &format!("{i:02}"))).collect();
    let file = tree.file();
    let all = tree.text(&letters(32_400));
    for i in 0..4_096 - directories.len() {
        tree.name_again(directories[i % directories.len()], all.part(7 * i, 250), file);
    }
    tree
}

pub fn many_links() -> Tree {
    let (mut tree, _) = Tree::mounted();
    let source = letters(18);
    for i in 0..3_000 {
        let body = tree.text(&source[..i % 18 + 1]);
        tree.link(body);
    }
    tree
}

fn shared_bodies() -> Tree {
    let (mut tree, _) = Tree::mounted();
    let all = tree.text(&letters(17_000));
    for i in 0..4_000 {
        let len = i * 1_021 % 4_095 + 1;
        let at = i * 37 % (all.len() - len + 1);
        tree.link(all.part(at, len));
    }
    tree
}

fn deep_chain() -> Tree {
    let (mut tree, top) = Tree::mounted();
    let name = tree.text(b"d");
    // Names for all of them would not fit.
    let chain = tree.chain(top, &name, 4_095, 2_040);
    tree.mount(chain[2_000], 0, chain[4_094]);
    tree
}

pub fn many_mounts() -> Tree {
    let (mut tree, top) = Tree::mounted();
    for i in 1..256 {
        let point = tree.named_directory(top, &format!("m{i:03}"));
        let root = tree.top();
        for j in 0..8 {
            tree.named_file(root, &format!("file-{j}"));
        }
        tree.mount(root, 0, point);
    }
    tree
}

/// As many of the chain have a name as `named` says.
pub fn magic_links(named: usize) -> Tree {
    let (mut tree, top) = Tree::mounted();
    let name = tree.text(b"d");
    let chain = tree.chain(top, &name, 2_047, named);
    let from_end = |i: usize| chain[chain.len() - 1 - i];
    for i in 1..256 {
        tree.mount(chain[i - 1], 0, from_end(i));
    }
    for i in 0..2_048 {
        tree.magic(i % 256, from_end(i / 256));
    }
    tree
}

/// To check this handle takes the whole chain and all mounts; the path has no use for it.
fn walk_root_far() -> Input {
    let (mut tree, top) = Tree::mounted();
    let tare = tree.named_file(top, "tare");
    let name = tree.text(b"d");
    let chain = tree.chain(top, &name, 3_255, 1);
    for &point in &chain[3_000..] {
        tree.mount(top, 0, point);
    }
    found(&tree, chain[2_999] as u64, "/tare", (0, tare), 1, 0)
}

fn walk_deep() -> Input {
    let (mut tree, top) = Tree::mounted();
    let name = tree.text(b"d");
    let chain = tree.chain(top, &name, 1_000, 1_000);
    found(&tree, 0, &["d"; 1_000].join("/"), (0, chain[999]), 1_000, 0)
}

fn walk_dotdot() -> Input {
    let (mut tree, top) = Tree::mounted();
    tree.named_directory(top, "d");
    found(&tree, 0, &["d/.."; 500].join("/"), (0, 0), 1_000, 0)
}

fn walk_tail() -> Input {
    let (mut tree, top) = Tree::mounted();
    let mut directory = top;
    for _ in 0..40 {
        tree.named_link(directory, "link", "below/link");
        directory = tree.named_directory(directory, "below");
    }
    let file = tree.named_file(directory, "link");
    found(&tree, 0, "link", (0, file), 81, 40)
}

fn walk_nested() -> Input {
    let (mut tree, top) = Tree::mounted();
    for i in 0..39 {
        tree.named_link(top, &format!("link{i}"), &format!("link{}/x", i + 1));
    }
    tree.named_link(top, "link39", "x");
    let name = tree.text(b"x");
    let chain = tree.chain(top, &name, 41, 41);
    found(&tree, 0, "link0/x", (0, chain[40]), 81, 40)
}

fn walk_wide() -> Input {
    let (mut tree, top) = Tree::mounted();
    let [early, middle] = [(); 2].map(|()| tree.directory(top));
    let late = tree.file();
    let others: Vec<usize> = (0..100).map(|_| tree.file()).collect();
    for i in 0..3_000 {
        let node = match i {
            100 => early,
            1_500 => middle,
            2_950 => late,
            _ => others[i % others.len()],
        };
        tree.named(top, &format!("entry{i:04}"), node);
    }
    let path = "entry0100/../entry1500/../entry2950";
    found(&tree, 0, path, (0, late), 5, 0)
}

fn walk_mounts() -> Input {
    let mut tree = Tree::default();
    let mut root = tree.top();
    tree.mount(root, 0, root);
    for parent in 0..255 {
        let point = tree.named_directory(root, "m");
        root = tree.top();
        tree.mount(root, parent, point);
    }
    let path = ["m"; 255].iter().chain(&[".."; 255]).copied().collect::<Vec<_>>().join("/");
    found(&tree, 0, &path, (0, 0), 510, 0)
}
