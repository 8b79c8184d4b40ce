//! Tables at, and just over, the limits.

use super::bodies::long_body;
use data::dice::Dice;
use data::image::Tree;

/// A directory "a" in the top, with a file "f".
struct Large {
    tree: Tree,
    top: usize,
    inner: usize,
    file: usize,
    /// How many more than there may be: 0, or sometimes 1.
    over: usize,
}

pub fn large(dice: &mut Dice) -> Vec<u8> {
    let mut tree = Tree::default();
    let top = tree.top();
    let inner = tree.directory(top);
    tree.name(top, b"a", inner);
    let file = tree.file();
    tree.name(inner, b"f", file);
    let mut large = Large { tree, top, inner, file, over: dice.pick(&[0, 0, 0, 1]) };
    let mut mounts = 3;
    match dice.below(7) {
        0 => large.nodes(dice),
        1 => mounts = 255 + large.over + dice.below(2),
        2 => large.entries(dice),
        3 => large.deep(dice),
        4 => large.components(dice),
        5 => large.bodies(dice),
        _ => large.mixed(dice),
    }
    large.mount(mounts);
    let mut tree = large.tree;
    let image = tree.shared_image();
    if dice.percent(30) {
        let length = dice.pick(&[65_535, 65_536, 65_536, 65_537]);
        tree.after = vec![b'a'; length - image.len().min(length)];
        return tree.shared_image();
    }
    image
}

impl Large {
    fn nodes(&mut self, dice: &mut Dice) {
        let count = 4095 + self.over + dice.below(2);
        while self.tree.nodes.len() < count {
            match dice.below(4) {
                0 => self.tree.file(),
                1 => self.tree.link(b"a"),
                2 => self.tree.magic(0, self.top),
                _ => self.tree.directory(self.inner),
            };
        }
    }

    fn entries(&mut self, dice: &mut Dice) {
        for number in 0..4094 + self.over + dice.below(2) {
            let directory = if number % 3 == 0 { self.top } else { self.inner };
            self.tree.name(directory, format!("{number:x}"), self.file);
        }
    }

    /// As deep as can be; deepest where the directories have no names.
    fn deep(&mut self, dice: &mut Dice) {
        let Large { tree, top, inner, .. } = self;
        let is_named = dice.percent(60);
        let most = if is_named { 3100 } else { 4090 };
        let length = dice.from(500, most);
        let chain = tree.chain(*inner, &b"a".into(), length, if is_named { length } else { 0 });
        let last = chain[length - 1];
        let magic = tree.magic(0, last);
        tree.name(*inner, b"m", magic);
        tree.mount(*top, 0, *top);
        tree.mount(*inner, 0, last);
    }

    /// The most components: every text is as long as it can be.
    fn components(&mut self, dice: &mut Dice) {
        let name = dice.pick(&["s", "m"]);
        let link = self.tree.link("./".repeat(2047) + "s");
        self.tree.name(self.top, name, link);
    }

    fn bodies(&mut self, dice: &mut Dice) {
        for number in 0..dice.from(4, 15) {
            let link = self.tree.link(long_body(dice));
            self.tree.name(self.inner, format!("l{number}"), link);
        }
        if self.over == 1 {
            self.tree.link([b'a'; 4096]);
        }
    }

    fn mixed(&mut self, dice: &mut Dice) {
        let directories = [self.top, self.inner];
        for number in 0..dice.from(500, 1900) {
            let (directory, node) = match dice.below(4) {
                0 => {
                    let parent = dice.pick(&directories);
                    (parent, self.tree.directory(parent))
                }
                1 => (dice.pick(&directories), self.tree.link(b"../a")),
                _ => (dice.pick(&directories), self.tree.file()),
            };
            self.tree.name(directory, format!("{number}"), node);
        }
    }

    /// Mounts up to so many, each on the same directory, in the last that shows it.
    fn mount(&mut self, count: usize) {
        let Large { tree, top, inner, .. } = self;
        if tree.mounts.is_empty() {
            tree.mount(*top, 0, *top);
        }
        while tree.mounts.len() < count {
            let shows = tree.mounts.iter().rposition(|mount| mount.root == *top);
            tree.mount(*top, shows.unwrap_or(0), *inner);
        }
    }
}
