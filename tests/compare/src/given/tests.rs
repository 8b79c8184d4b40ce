use super::*;
use crate::generate::{Cases, Wanted};

fn read(text: &str) -> Result<Case, String> {
    // As a shell has it.
    let words = text.split(' ').map(|word| if word == "''" { "" } else { word });
    let words = ["replay"].into_iter().chain(words);
    given(&Arguments(words.map(String::from).collect()))
}

/// Every case that is told can be given again.
#[test]
fn what_is_told_is_read() {
    let wanted = Wanted {
        tables: 40,
        calls: 60,
        sequences: 10,
        lookups: 60,
        builds: 40,
        manifests: 10,
        pairs: 60,
    };
    for numbered in Cases::new(12, wanted) {
        let text = numbered.case.to_string();
        assert!(read(&text) == Ok(numbered.case), "{text}");
    }
}

#[test]
fn a_pair_is_in_common_if_nothing_else_is_said() {
    let mut pairs = Cases::new(12, Wanted { pairs: 30, ..Wanted::default() });
    let said = |text: &str, number: u8| text.replace(&format!(" --common {number}"), "");
    assert!(pairs.all(|numbered| {
        let Case::Pair(pair) = &numbered.case else { return false };
        let text = said(&numbered.case.to_string(), u8::from(pair.is_common));
        read(&text) == Ok(numbered.case)
    }));
}

#[test]
fn a_pair_wants_no_other_options() {
    for more in ["--added 1", "--sequence dup:0", "--name 61", "--manifest", "--room 9", "x"] {
        let text = format!("--image 00 --other 00 --path 61 --how 00 {more}");
        assert!(read(&text).is_err(), "{more}");
    }
    for wrong in ["--other 0", "--common yes", "--script dup", "--other"] {
        let text = format!("--image 00 --path 61 --how 00 --other 00 {wrong}");
        let text = text.replace("--other 00 --other", "--other");
        assert!(read(&text).is_err(), "{wrong}");
    }
}
