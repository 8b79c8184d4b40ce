//! Which node and mount of one table is which of another, if both have the same tree.

use crate::case::{same, Difference};
use crate::resolver::{Node, Place, Table, DIRECTORY, LINK, MAGIC};

/// By the numbers in the first table, those in the second.
pub struct Pairs<'a> {
    tables: [&'a Table<'a>; 2],
    nodes: Vec<Option<u64>>,
    mounts: Vec<u64>,
    /// The directories without a name in each directory, of both tables.
    nameless: [Vec<Vec<u64>>; 2],
    /// Pairs of which the records are still to be compared.
    waiting: Vec<(u64, u64)>,
}

impl<'a> Pairs<'a> {
    /// Pairs what corresponds: from the roots of mounts by names and by parents, then what is left
    /// in the order of the numbers, which is all that tells it apart.
    pub fn of(one: &'a Table<'a>, two: &'a Table<'a>) -> Result<Self, Difference> {
        let counts = |table: &Table| [table.nodes.len(), table.mounts.len(), table.entries.len()];
        let [expected, got] = [one, two].map(|table| counts(table).map(|count| count as u64));
        same("nodes, mounts and entries", &expected, got.to_vec())?;
        let mut pairs = Pairs {
            tables: [one, two],
            nodes: vec![None; one.nodes.len()],
            mounts: Vec::new(),
            nameless: [nameless(one), nameless(two)],
            waiting: Vec::new(),
        };
        pairs.pair_mounts()?;
        pairs.pair_rest(|number, node| node.kind == DIRECTORY && node.parent == number)?;
        pairs.pair_rest(|_, node| node.kind != DIRECTORY)?;
        pairs.all_are_paired()?;
        pairs.magic_links()?;
        Ok(pairs)
    }

    /// The same place in the second table; what is in no table stays.
    pub fn place(&self, Place { mount, node }: Place) -> Place {
        Place {
            mount: self.mounts.get(mount as usize).copied().unwrap_or(mount),
            node: self.nodes.get(node as usize).copied().flatten().unwrap_or(node),
        }
    }

    fn pair_mounts(&mut self) -> Result<(), Difference> {
        let [one, two] = self.tables;
        for (number, mount) in one.mounts.iter().enumerate() {
            let found = match number {
                0 => Some(0),
                _ => {
                    let place = self.place(Place { mount: mount.parent, node: mount.point });
                    let is_on = |m: &crate::resolver::Mount| {
                        (m.parent, m.point) == (place.mount, place.node)
                    };
                    two.mounts.iter().skip(1).position(is_on).map(|at| at as u64 + 1)
                }
            };
            let what = format!("mounts on the point of mount {number}");
            same(&what, &[1], vec![u64::from(found.is_some())])?;
            let found = found.unwrap_or_default();
            self.mounts.push(found);
            self.pair(mount.root, two.mounts[found as usize].root)?;
        }
        Ok(())
    }

    /// Pairs what is left of a kind.
    fn pair_rest(&mut self, is_so: fn(u64, &Node) -> bool) -> Result<(), Difference> {
        let [one, two] = self.tables;
        let back: Vec<u64> = self.nodes.iter().copied().flatten().collect();
        let ones = (0..).zip(&one.nodes).filter(|(number, node)| {
            is_so(*number, node) && self.nodes[*number as usize].is_none()
        });
        let ones: Vec<u64> = ones.map(|(number, _)| number).collect();
        let twos = (0..).zip(&two.nodes);
        let mut is_paired = vec![false; two.nodes.len()];
        back.into_iter().for_each(|number| is_paired[number as usize] = true);
        let twos =
            twos.filter(|(number, node)| is_so(*number, node) && !is_paired[*number as usize]);
        let twos: Vec<u64> = twos.map(|(number, _)| number).collect();
        same("what no mount shows", &[ones.len() as u64], vec![twos.len() as u64])?;
        ones.into_iter().zip(twos).try_for_each(|(one, two)| self.pair(one, two))
    }

    /// Pairs two nodes and all that hangs together with them.
    fn pair(&mut self, one: u64, two: u64) -> Result<(), Difference> {
        self.put(one, two)?;
        while let Some((one, two)) = self.waiting.pop() {
            self.records(one, two)?;
        }
        Ok(())
    }

    fn put(&mut self, one: u64, two: u64) -> Result<(), Difference> {
        match self.nodes[one as usize] {
            Some(other) => same(&format!("what node {one} is"), &[other], vec![two]),
            None => {
                self.nodes[one as usize] = Some(two);
                self.waiting.push((one, two));
                Ok(())
            }
        }
    }

    /// Two nodes are of one kind, with the same names or body; what they speak of is paired.
    fn records(&mut self, one: u64, two: u64) -> Result<(), Difference> {
        let tables = self.tables;
        let [first, second] = [&tables[0].nodes[one as usize], &tables[1].nodes[two as usize]];
        same(&format!("the kind of node {one}"), &[first.kind], vec![second.kind])?;
        if first.kind == LINK {
            let [expected, got] = [(tables[0], first), (tables[1], second)]
                .map(|(table, link)| table.text_part(link.first, link.count).unwrap_or_default());
            return same(&format!("the body of node {one}"), &numbers(expected), numbers(got));
        }
        if first.kind != DIRECTORY {
            return Ok(());
        }
        self.put(first.parent, second.parent)?;
        let entries = [tables[0].entries_of(first), tables[1].entries_of(second)];
        let count = |at: usize| entries[at].len() as u64;
        same(&format!("the names in node {one}"), &[count(0)], vec![count(1)])?;
        for (entry, other) in entries[0].iter().zip(entries[1]) {
            let [expected, got] = [tables[0].name(entry), tables[1].name(other)].map(names);
            same(&format!("a name in node {one}"), &expected, got)?;
            self.put(entry.node, other.node)?;
        }
        self.put_nameless(one, two)
    }

    fn put_nameless(&mut self, one: u64, two: u64) -> Result<(), Difference> {
        let ones = std::mem::take(&mut self.nameless[0][one as usize]);
        let twos = std::mem::take(&mut self.nameless[1][two as usize]);
        let what = format!("directories without a name in node {one}");
        same(&what, &[ones.len() as u64], vec![twos.len() as u64])?;
        ones.into_iter().zip(twos).try_for_each(|(one, two)| self.put(one, two))
    }

    /// Each node is another one of the second table, and each mount another mount.
    fn all_are_paired(&self) -> Result<(), Difference> {
        let mut nodes: Vec<u64> = self.nodes.iter().map(|two| two.unwrap_or(u64::MAX)).collect();
        nodes.sort_unstable();
        same("all nodes, each once", &(0..nodes.len() as u64).collect::<Vec<_>>(), nodes)?;
        let mut mounts = self.mounts.clone();
        mounts.sort_unstable();
        same("all mounts, each once", &(0..mounts.len() as u64).collect::<Vec<_>>(), mounts)
    }

    fn magic_links(&self) -> Result<(), Difference> {
        let [one, two] = self.tables;
        for (number, node) in (0..).zip(&one.nodes).filter(|(_, node)| node.kind == MAGIC) {
            let target = self.place(Place { mount: node.first, node: node.count });
            let at = self.place(Place { mount: 0, node: number }).node;
            let got = &two.nodes[at as usize];
            let what = format!("the target of node {number}");
            same(&what, &[target.mount, target.node], vec![got.first, got.count])?;
        }
        Ok(())
    }
}

/// The directories in each directory that no entry names.
fn nameless(table: &Table) -> Vec<Vec<u64>> {
    let mut is_named = vec![false; table.nodes.len()];
    table.entries.iter().for_each(|entry| is_named[entry.node as usize] = true);
    let mut nameless = vec![Vec::new(); table.nodes.len()];
    let below = (0..).zip(&table.nodes).filter(|(number, node)| {
        node.kind == DIRECTORY && node.parent != *number && !is_named[*number as usize]
    });
    below.for_each(|(number, node)| nameless[node.parent as usize].push(number));
    nameless
}

fn names(name: Option<&[u8]>) -> Vec<u64> {
    numbers(name.unwrap_or_default())
}

fn numbers(bytes: &[u8]) -> Vec<u64> {
    bytes.iter().map(|byte| u64::from(*byte)).collect()
}
