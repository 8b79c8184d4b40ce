//! What a reply does not show by itself: what stands in the slots.

use super::*;
use crate::resolver::{accept, EUCLEAN, O_NOFOLLOW, O_PATH};
use data::image::Tree;
use data::{how, BENCH_TREE};

fn open(number: u64, path: &str, flags: u64, mark: bool) -> Step {
    let path = path.as_bytes().to_vec();
    Step::Open(Open { number, mark, path, how: how(flags, 0), ..Open::default() })
}

fn held(node: u64, mark: bool) -> Option<Held> {
    Some(Held { place: Place { mount: 0, node }, mark })
}

/// The descriptors over the bench tree after calls that are all done.
fn after(steps: &[Step]) -> Descriptors {
    let table = accept(BENCH_TREE).ok();
    let mut descriptors = Descriptors::start(table.as_ref());
    for step in steps {
        let [errno, ..] = descriptors.act(table.as_ref(), step);
        assert_eq!(errno, 0, "{step}");
    }
    descriptors
}

/// A refusal, which leaves all slots as they were.
fn refuses(descriptors: &Descriptors, step: Step, expected: Reply) {
    let table = accept(BENCH_TREE).ok();
    let mut after = descriptors.clone();
    assert_eq!(after.act(table.as_ref(), &step), expected, "{step}");
    assert_eq!(after, *descriptors, "{step}");
}

#[test]
fn only_descriptor_0_starts_open() {
    let descriptors = after(&[]);
    assert_eq!((descriptors.held(0), descriptors.open_ones()), (held(0, false), vec![0]));
    assert_eq!(Descriptors::start(None).open_ones(), []);
    for number in [1, 63, 64, 1 << 32, u64::MAX] {
        assert_eq!(descriptors.held(number), None);
    }
}

#[test]
fn duplicates_keep_the_mark_and_share_none_set_later() {
    let directory = O_DIRECTORY;
    let descriptors = after(&[
        open(0, "lab", directory, true),
        Step::Dup(1),
        open(1, "cal", 0, false),
        Step::Dup(3),
        Step::SetMark(3),
        Step::SetMark(3),
    ]);
    let slots = [1, 2, 3, 4].map(|number| descriptors.held(number));
    assert_eq!(slots, [held(1, true), held(1, true), held(2, true), held(2, false)]);
}

#[test]
fn the_lowest_free_number_is_given() {
    let mut steps = vec![Step::Dup(0); 63];
    steps.extend([7, 3, 0].map(Step::Close));
    steps.push(Step::Dup(1));
    let descriptors = after(&steps);
    assert!(descriptors.held(0).is_some() && descriptors.held(3).is_none());
    steps.extend([Step::Dup(1), Step::Dup(1)]);
    let full = after(&steps);
    assert!(full.is_full());
    refuses(&full, Step::Dup(1), refused(EMFILE));
    refuses(&full, open(0, "lab/cal", 0, false), refused(EMFILE));
    // "exactly when nothing before it applies"
    refuses(&full, open(0, "lab/x", 0, false), [2, 255, 0, 0, 2, 0, 0]);
    refuses(&full, open(0, "lab", 0, true), refused(EINVAL));
    refuses(&full, open(64, "lab", 0, true), refused(EBADF));
    refuses(&full, Step::Dup(64), refused(EBADF));
}

#[test]
fn refusals_come_in_their_order() {
    let descriptors = after(&[open(0, "lab/cal/tare", 0, false), Step::Dup(0), Step::Close(2)]);
    for number in [2, 64, u64::MAX] {
        refuses(&descriptors, open(number, "", 1, true), refused(EBADF));
        refuses(&descriptors, Step::SetMark(number), refused(EBADF));
        refuses(&descriptors, Step::Close(number), refused(EBADF));
    }
    // The mark's EINVAL comes before an unknown bit, which has a detail.
    refuses(&descriptors, open(0, "lab", 1, true), refused(EINVAL));
    refuses(&descriptors, open(0, "lab", 1 | O_DIRECTORY, true), [22, 0, 0, 0, 0, 0, 0]);
    refuses(&descriptors, open(1, ".", 0, false), [20, 255, 0, 0, 0, 0, 0]);
    refuses(&descriptors, Step::SetMark(1), refused(ENOTTY));
    // Over a table that is refused, an open number's place cannot be read.
    let mut over_refused = descriptors.clone();
    assert_eq!(over_refused.act(None, &open(0, "lab", 0, false)), refused(EUCLEAN));
    assert_eq!(over_refused.act(None, &open(0, "lab", 0, true)), refused(EINVAL));
    assert_eq!(over_refused, descriptors);
}

#[test]
fn what_is_opened_through_a_marked_one_is_unmarked_unless_asked() {
    let descriptors = after(&[
        Step::SetMark(0),
        open(0, "lab", 0, false),
        open(0, "lab", O_DIRECTORY, true),
        open(1, "..", 0, false),
    ]);
    let slots = [0, 1, 2, 3].map(|number| descriptors.held(number));
    assert_eq!(slots, [held(0, true), held(1, false), held(1, true), held(0, false)]);
    refuses(&descriptors, open(2, "..", 0, false), [2, 255, 0, 0, 1, 0, 0]);
}

/// A file and a link that are held, and a covered directory that a magic link leads to.
fn bad_ones() -> (Vec<u8>, Vec<Step>) {
    let (mut tree, top) = Tree::mounted();
    let covered = tree.named_directory(top, "c");
    tree.named_file(top, "f");
    tree.named_link(top, "l", "f");
    let magic = tree.magic(0, covered);
    tree.name(top, "m", magic);
    tree.mount(top, 0, covered);
    let unfollowed = O_PATH | O_NOFOLLOW;
    let opens = [("f", 0), ("l", unfollowed), ("m", unfollowed), ("m", 0)];
    (tree.image(), opens.map(|(path, flags)| open(0, path, flags, false)).to_vec())
}

#[test]
fn an_absolute_path_is_opened_through_any_open_number() {
    let (image, steps) = bad_ones();
    let table = accept(&image).ok();
    let mut descriptors = Descriptors::start(table.as_ref());
    let mut act = |step: Step| descriptors.act(table.as_ref(), &step);
    steps.into_iter().for_each(|step| assert_eq!(act(step)[0], 0));
    for (number, errno) in [(1, 20), (2, 20), (3, 20), (4, 9)] {
        assert_eq!(act(open(number, ".", 0, false)), refused(errno));
        assert_eq!(act(open(number, "/", 0, false)), [0, 255, 0, 0, 0, 0, 5]);
        assert_eq!(act(Step::Close(5))[0], 0);
        // The mark that is asked for is not the handle's.
        assert_eq!(act(open(number, "/c", O_DIRECTORY, true)), [0, 255, 1, 0, 1, 0, 5]);
        assert_eq!(act(Step::Close(5))[0], 0);
        assert_eq!(act(open(number, "/x", 0, false)), [2, 255, 0, 0, 1, 0, 0]);
    }
    // "EBADF for a closed number or one above 63, whatever the path"
    for number in [5, 64, u64::MAX] {
        assert_eq!(act(open(number, "/", 0, false)), refused(EBADF));
    }
    // The covered directory once it is marked is checked, before Start.
    assert_eq!(act(Step::SetMark(4))[0], 0);
    assert_eq!(act(open(4, "/", 0, false)), refused(EBADF));
    assert_eq!(act(open(4, ".", 0, false)), refused(EBADF));
    assert_eq!(act(Step::SetMark(0))[0], 0);
    assert_eq!(act(open(0, "/", 0, false)), refused(2));
}
