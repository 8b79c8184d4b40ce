//! Tables shown: as a tree, as a graph, as JSON.

mod common;

use common::{answer, answer_to, image, Named};
use ventolaire::bench_tree::IMAGE;

#[test]
fn a_tree_is_drawn() {
    let tree = "\
mounts
    0  root 0:0
    1  root 1:8, on 0:7
nodes
    0  /  [root of mount 0]
    1  └── lab/
    2      ├── cal/
    5      │   ├── abs -> /lab/cal/tare
   10      │   ├── fd => 0:3
    6      │   ├── loop -> loop
   11      │   ├── t -> tare/
    3      │   ├── tare
    4      │   └── up -> ../..
    7      └── pool/  [mount 1 covers 0:7]
    8  /  [root of mount 1]
    9  └── run
";
    let file = Named::file(IMAGE);
    assert_eq!(answer(["show", file.path()]), (0, tree.into()));
    assert_eq!(answer_to(IMAGE, ["show", "-"]), (0, tree.into()));
}

#[test]
fn a_graph_is_written() {
    let (status, dot) = answer_to(IMAGE, ["show", "--dot", "-"]);
    assert_eq!(status, 0);
    assert!(dot.starts_with("digraph table {\n") && dot.ends_with("}\n"));
    for line in [
        "n5 [shape=cds, label=\"5\\n/lab/cal/tare\"];",
        "n1 -> n2 [label=\"cal\"];",
        "n10 -> n3 [style=dashed, label=\"0:3\"];",
        "mount0 -> n0 [style=bold];",
        "n7 -> n8 [style=bold, label=\"mount 1 on 0:7\"];",
    ] {
        assert!(dot.contains(line), "{line}");
    }
}

#[test]
fn json_holds_the_whole_table() {
    let (status, json) = answer_to(IMAGE, ["show", "--json", "-"]);
    assert_eq!((status, json.lines().count()), (0, 1));
    let mounts = concat!(
        r#"{"mounts":[{"mount":0,"root":{"mount":0,"node":0}},"#,
        r#"{"mount":1,"root":{"mount":1,"node":8},"on":{"mount":0,"node":7}}],"#,
    );
    assert!(json.starts_with(mounts), "{json}");
    for node in [
        r#"{"node":0,"kind":"directory","entries":[{"name":"lab","node":1}]}"#,
        r#"{"node":7,"kind":"directory","parent":1,"entries":[]}"#,
        r#"{"node":9,"kind":"file"}"#,
        r#"{"node":4,"kind":"link","body":"../.."}"#,
        r#"{"node":10,"kind":"magic_link","target":{"mount":0,"node":3}}"#,
    ] {
        assert!(json.contains(node), "{node}");
    }
}

/// A directory with two names, one without any, and a file without any.
#[test]
fn nothing_is_left_out_and_nothing_repeated() {
    let mut bytes = b"TOC1".to_vec();
    for number in [4_u16, 1, 2, 0, 2, 0, 94, 0] {
        bytes.extend(number.to_le_bytes());
    }
    // Nodes: the top, two directories in it, a file.
    for [kind, parent, first, count] in [[1_u16, 0, 0, 2], [1, 0, 2, 0], [1, 0, 2, 0], [2, 0, 0, 0]]
    {
        for field in [kind, parent, first, 0, count, 0] {
            bytes.extend(field.to_le_bytes());
        }
    }
    bytes.extend([0; 8]);
    for offset in [0_u16, 1] {
        for field in [offset, 0, 1, 1] {
            bytes.extend(field.to_le_bytes());
        }
    }
    bytes.extend(b"a\xff");
    let tree = "\
mounts
    0  root 0:0
nodes
    0  /  [root of mount 0]
    1  ├── a/
    1  ├── \\xff/  (shown above)
    2  └── (no name)/
    3  (no name)
";
    assert_eq!(answer_to(&bytes, ["show", "-"]), (0, tree.into()));
    let (_, dot) = answer_to(&bytes, ["show", "-", "--dot"]);
    assert!(dot.contains("n0 -> n2 [style=dotted];"));
}

/// Mount 0's root need not be node 0, and is told as its root.
#[test]
fn mount_0s_root_is_shown() {
    let mut bytes = IMAGE.to_vec();
    let mount = 20 + 12 * 12;
    (bytes[mount], bytes[mount + 4]) = (1, 1);
    let (_, tree) = answer_to(&bytes, ["show", "-"]);
    assert!(tree.starts_with("mounts\n    0  root 0:1\n"), "{tree}");
    assert!(tree.contains("    1  └── lab/  [root of mount 0]\n"), "{tree}");
    let (_, dot) = answer_to(&bytes, ["show", "-", "--dot"]);
    assert!(dot.contains("mount0 -> n1 [style=bold];"));
    let (_, json) = answer_to(&bytes, ["show", "-", "--json"]);
    assert!(json.contains(r#"{"mount":0,"root":{"mount":0,"node":1}}"#));
}

/// Names that would act on a terminal, on Graphviz or on a reader's eye.
#[test]
fn what_cannot_be_printed_is_escaped() {
    let bidi = "z\u{202e}cod.exe";
    let names = [b"\x1b[2J".as_slice(), b"\"&lt;\\N", b"a\nb", bidi.as_bytes(), b"\xff"];
    let bytes = image(&names, "\u{feff}&\x07".as_bytes());
    let tree = "\
mounts
    0  root 0:0
nodes
    0  /  [root of mount 0]
    1  ├── \\x1b[2J -> \\ufeff&\\x07
    1  ├── \"&lt;\\\\N -> \\ufeff&\\x07
    1  ├── a\\nb -> \\ufeff&\\x07
    1  ├── z\\u202ecod.exe -> \\ufeff&\\x07
    1  └── \\xff -> \\ufeff&\\x07
";
    assert_eq!(answer_to(&bytes, ["show", "-"]), (0, tree.into()));

    let (_, dot) = answer_to(&bytes, ["show", "-", "--dot"]);
    for line in [
        r#"n1 [shape=cds, label="1\n\\ufeff&amp;\\x07"];"#,
        r#"n0 -> n1 [label="\\x1b[2J"];"#,
        r#"n0 -> n1 [label="\"&amp;lt;\\\\N"];"#,
        r#"n0 -> n1 [label="z\\u202ecod.exe"];"#,
    ] {
        assert!(dot.contains(line), "{line} in {dot}");
    }

    let (_, json) = answer_to(&bytes, ["show", "-", "--json"]);
    for member in [
        r#"{"name":"\u001b[2J","node":1}"#,
        r#"{"name":"\"&lt;\\N","node":1}"#,
        r#"{"name":"a\u000ab","node":1}"#,
        r#"{"name":"z\u202ecod.exe","node":1}"#,
        "{\"name\":\"\u{fffd}\",\"name_hex\":\"ff\",\"node\":1}",
        r#""body":"\ufeff&\u0007"}"#,
    ] {
        assert!(json.contains(member), "{member} in {json}");
    }
}
