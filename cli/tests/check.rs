//! Verdicts on images, and why they are refused.

mod common;

use common::{answer, answer_to, error, Named};
use ventolaire::bench_tree::IMAGE;

/// The bench tree with node 3 of an unknown kind.
fn broken() -> Vec<u8> {
    let mut image = IMAGE.to_vec();
    image[20 + 12 * 3] = 9;
    image
}

#[test]
fn check_accepts() {
    let good = Named::file(IMAGE);
    assert_eq!(answer(["check", good.path()]), (0, "accepted\n".into()));
    let json = "{\"accepted\":true}\n";
    assert_eq!(answer(["check", good.path(), "--json"]), (0, json.into()));
    assert_eq!(answer_to(IMAGE, ["check", "-"]), (0, "accepted\n".into()));
}

#[test]
fn check_says_what_breaks_which_rule() {
    let why = "rule 4 broken by node 3: its kind is 9, not 1 to 4 (RULES 4.4a)";
    let bad = Named::file(&broken());
    assert_eq!(answer(["check", bad.path()]), (1, format!("{why}\n")));
    let json = r#"{"rule":4,"clause":"4.4a","node":3,"reason":"its kind is 9, not 1 to 4"}"#;
    let verdict = format!("{{\"accepted\":false,\"broken\":{json}}}\n");
    assert_eq!(answer(["check", bad.path(), "--json"]), (1, verdict));

    // A path has its answer all the same; there is nothing to be shown.
    let refused = format!("EUCLEAN (117), {why}; 0 components, 0 links\n");
    assert_eq!(bad.resolve(&["cal"]), (1, refused.clone()));
    assert_eq!(bad.resolve(&["a", "b"]), (1, format!("a\t{refused}b\t{refused}")));
    let answer = r#"{"path":"a","found":false,"error":"EUCLEAN","errno":117,"broken":"#;
    let line = format!("{answer}{json},\"components\":0,\"links\":0}}\n");
    assert_eq!(bad.resolve(&["a", "--json"]), (1, line));
    for form in [&[][..], &["--dot"], &["--json"]] {
        let line = error(["show", bad.path()].iter().chain(form));
        assert_eq!(line, format!("cannot show {}: {why}", bad.path()));
    }
}

/// A record is named where there is one.
#[test]
fn records_are_told_by_their_sort() {
    let [mounts, entries] = [20 + 12 * 12, 20 + 12 * 12 + 2 * 8];
    for (at, byte, text, json) in [
        (4, 0, "rule 3 broken: the header counts 0 nodes", r#""clause":"4.3","reason""#),
        (20 + 12 * 8 + 8, 2, "rule 4 broken: the dir", r#""clause":"4.4h","reason""#),
        (entries + 8 * 5, 17, "rule 5 broken by entry 5: its name has a slash", r#""entry":5,"#),
        (mounts + 8, 9, "rule 6 broken by mount 1: its root is node 9", r#""mount":1,"#),
        (20 + 12 * 10 + 4, 2, "rule 7 broken by node 10: its target's", r#""node":10,"#),
    ] {
        let mut image = IMAGE.to_vec();
        image[at] = byte;
        let (status, verdict) = answer_to(&image, ["check", "-"]);
        assert!(status == 1 && verdict.starts_with(text), "{verdict}");
        let (status, verdict) = answer_to(&image, ["check", "-", "--json"]);
        assert!(status == 1 && verdict.contains(json), "{verdict}");
    }
}
