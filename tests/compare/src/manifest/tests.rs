use super::*;
use crate::faults::Fault;
use crate::generate::{Cases, Wanted};
use crate::subject::Planted;
use data::image::Tree;

/// The faults of manifests, with what is said of each.
const FAULTS: [(Fault, &str); 6] = [
    (Fault::ManifestBody, "the length of a manifest's image"),
    (Fault::ManifestParent, "the check of a manifest's image"),
    (Fault::ManifestNameless, "the length of a manifest's image"),
    (Fault::ManifestTwoFiles, "the length of a manifest's image"),
    (Fault::ManifestRoot, "the names in node"),
    (Fault::ManifestTarget, "the target of node"),
];

fn cases() -> Cases {
    Cases::new(2, Wanted { manifests: 1_000, ..Wanted::default() })
}

#[test]
fn faults_are_found() {
    for (fault, what) in FAULTS {
        let mut subject = Planted(Some(fault));
        let found = cases().find(|numbered| {
            let compared = numbered.case.compare(&mut subject);
            compared.is_err_and(|difference| difference.what.starts_with(what))
        });
        assert!(found.is_some(), "{fault:?}");
    }
}

/// Also by the pairs alone, lengths and the check aside.
#[test]
fn faults_are_found_by_the_pairs() {
    for (fault, _) in FAULTS {
        let differs = |image: &[u8]| {
            let other = crate::faulty::rewritten(Some(fault), image).unwrap_or_default();
            match (accept(image), accept(&other)) {
                (Ok(one), Ok(two)) => Pairs::of(&one, &two).is_err(),
                _ => false,
            }
        };
        assert!(cases().any(|numbered| differs(&numbered.case.image())), "{fault:?}");
    }
}

/// Two numberings of one tree, and one that looks alike.
#[test]
fn pairs_do_not_hang_on_numbers() {
    let tree = |is_turned: bool, is_shared: bool| {
        let (mut tree, top) = Tree::mounted();
        let (second, third) = (tree.top(), tree.top());
        let [one, two] = if is_turned { [third, second] } else { [second, third] };
        let (a, b) = (tree.directory(top), tree.directory(top));
        tree.name(top, "a", a);
        tree.name(top, "b", b);
        let (file, other) = (tree.file(), tree.file());
        tree.name(one, "f", file);
        tree.name(two, "f", if is_shared { file } else { other });
        let mounts = [(one, a), (two, b)];
        let turned = if is_turned { [mounts[1], mounts[0]] } else { mounts };
        turned.into_iter().for_each(|(root, point)| _ = tree.mount(root, 0, point));
        tree.image()
    };
    let paired = |one: &[u8], two: &[u8]| {
        let pairs = Pairs::of(&accept(one).unwrap(), &accept(two).unwrap())
            .map(|pairs| pairs.place(Place { mount: 1, node: 1 }));
        pairs.map_err(|difference| difference.what)
    };
    let [plain, turned] = [tree(false, false), tree(true, false)];
    assert_eq!(paired(&plain, &plain), Ok(Place { mount: 1, node: 1 }));
    assert_eq!(paired(&plain, &turned), Ok(Place { mount: 2, node: 2 }));
    assert!(paired(&plain, &tree(true, true)).is_err());
    assert!(paired(&tree(false, true), &turned).is_err());
}
