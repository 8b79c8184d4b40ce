//! The bench tree as a manifest.

use super::build;
use crate::bench_tree::{IMAGE, TABLE};
use crate::*;

const TREE: &str = "
    dir   /lab
    dir   /lab/cal
    file  /lab/cal/tare
    link  /lab/cal/up ../..
    link  /lab/cal/abs /lab/cal/tare
    link  /lab/cal/loop loop
    dir   /lab/pool
    dir   disk:
    file  disk:/run
    magic /lab/cal/fd /lab/cal/tare
    link  /lab/cal/t tare/
    mount disk: /lab/pool
";

/// What the bench tree's nodes are here: /, lab and cal; tare behind abs, fd, loop and t; up; and
/// so on.
const NUMBERS: [u64; 12] = [0, 1, 2, 7, 8, 3, 5, 9, 10, 11, 4, 6];

#[test]
fn the_bench_trees_answers_are_the_same() {
    let image = build(TREE);
    let table = Table::new(&image).unwrap();
    for row in TABLE {
        let node = NUMBERS[row.handle.node as usize];
        let expected = row.answer.map(|found| {
            let node = NUMBERS[found.place.node as usize];
            Found { place: Place { node, ..found.place }, ..found }
        });
        let handle = Handle { node, ..row.handle };
        assert_eq!(table.resolve(handle, row.path, row.how), expected, "{row:?}");
    }
    assert_eq!(Manifest::try_from(&Table::new(IMAGE).unwrap()).unwrap().build().unwrap(), image);
}
