//! Parts of tables: what is in them, and which tables have one in common.

mod inside;
mod large;
mod outside;
mod random;
mod reached;

use crate::*;

/// A laboratory, node 2 in mount 0, with a mount in it; and what lies outside of it.
const LAB: &str = "
    dir   /apart                   # 1
    dir   /lab                     # 2
    dir   /lab/cal                 # 3
    magic /lab/cal/fd /other/run   # 4
    file  /lab/cal/tare            # 5
    link  /lab/cal/up ../..        # 6
    hard  /lab/cal/x /lab/cal/tare
    dir   /lab/pool                # 7
    file  /lab/pool/hidden         # 8
    dir   /other                   # 9
    file  /other/run               # 10
    link  /other/to /lab/cal       # 11
    dir   disk:                    # 12
    dir   disk:/sub                # 13
    file  disk:/sub/run            # 14
    mount disk: /lab/pool          # 1
";

const HANDLE: Handle = Handle::new(0, 2);

fn build(text: &str) -> Vec<u8> {
    let built = Manifest::parse(text).and_then(|manifest| manifest.build());
    built.unwrap_or_else(|error| panic!("{error}\n{text}"))
}

/// The image of the laboratory with lines changed, each as it was and as it is. What was nothing
/// is a new line.
fn changed(lines: &[(&str, &str)]) -> Vec<u8> {
    let mut text = String::from(LAB);
    for (was, is) in lines {
        match *was {
            "" => text.extend([*is, "\n"]),
            _ => {
                assert_eq!(text.matches(was).count(), 1, "{was}");
                text = text.replace(was, is);
            }
        }
    }
    build(&text)
}

/// What is said of the difference between two images, in the part of a handle.
fn difference(one: &[u8], two: &[u8], handle: Handle) -> Result<(), PartDifference> {
    let [one, two] = [one, two].map(|image| Table::new(image).unwrap());
    one.part(handle).unwrap().in_common_with(&two)
}
