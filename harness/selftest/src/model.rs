//! What document 01 says of a tree, worked out from the counts of copies and from the tree before.
use oracle::{
    cut_choice, free_intervals, nodes, report, rust_mass, total, walk_nodes, Choice, Masses, Node,
    Row, Sum, Table, Tree, Words,
};
use runs::generate::Widths;
use std::collections::{BTreeMap, BTreeSet};
use std::slice::Iter;

/// A value as whole numbers, so that it can be looked up.
pub type Value = Vec<i32>;

/// How many copies of each value are held.
pub type Counts = BTreeMap<Value, usize>;

pub fn value(point: &[f32]) -> Value {
    point.iter().map(|&x| x as i32).collect()
}

pub fn value_at(table: &Table, index: usize) -> Value {
    value(table.point(index).expect("written"))
}

pub fn count_up(counts: &mut Counts, value: Value) {
    *counts.entry(value).or_insert(0) += 1;
}

pub fn count_down(counts: &mut Counts, value: Value) {
    let number = counts.get_mut(&value).expect("held");
    *number -= 1;
    if *number == 0 {
        counts.remove(&value);
    }
}

#[derive(Clone, Debug, PartialEq)]
struct Branch {
    dimension: usize,
    cut_bits: u32,
    left: usize,
    right: usize,
    mass: usize,
}

/// The form of a tree: its root, if any, and its branches by id.
#[derive(Clone, Debug, PartialEq)]
pub struct Form {
    root: Option<usize>,
    branches: BTreeMap<usize, Branch>,
}

/// A node of a walk, with the box around its leaves.
struct Walked {
    id: usize,
    mass: usize,
    low: Vec<f32>,
    high: Vec<f32>,
}

fn id(node: &Node) -> usize {
    match *node {
        Node::Leaf { id, .. } | Node::Branch { id, .. } => id,
    }
}

pub fn form(tree: &Tree, table: &Table) -> Form {
    let all = nodes(tree, table);
    Form {
        root: all.first().map(id),
        branches: all.iter().filter_map(branch).collect(),
    }
}

fn branch(node: &Node) -> Option<(usize, Branch)> {
    match *node {
        Node::Leaf { .. } => None,
        Node::Branch {
            id,
            dimension,
            cut,
            left,
            right,
            mass,
            ..
        } => {
            let cut_bits = cut.to_bits();
            let branch = Branch {
                dimension,
                cut_bits,
                left,
                right,
                mass,
            };
            Some((id, branch))
        }
    }
}

impl Form {
    /// Puts `new` where `old` stands.
    fn replace(&mut self, old: usize, new: usize) {
        if self.root == Some(old) {
            self.root = Some(new);
        }
        for branch in self.branches.values_mut() {
            for side in [&mut branch.left, &mut branch.right] {
                if *side == old {
                    *side = new;
                }
            }
        }
    }

    /// Gives each of these branches one more or one less.
    fn change_masses(&mut self, branches: &[Walked], by: isize) {
        for walked in branches {
            let branch = self.branches.get_mut(&walked.id).expect("a branch");
            branch.mass = branch.mass.checked_add_signed(by).expect("a mass");
        }
    }
}

/// The walk of a point from the leaf to the root.
fn walk(tree: &Tree, table: &Table, point: &[f32]) -> Vec<Walked> {
    let all = nodes(tree, table);
    let by_id: BTreeMap<usize, &Node> = all.iter().map(|node| (id(node), node)).collect();
    let mut rows = Vec::new();
    let mut at = Some(tree.oracle_root());
    while let Some(node) = at.and_then(|id| by_id.get(&id)) {
        let (row, next) = step(node, table, point);
        rows.push(row);
        at = next;
    }
    rows.reverse();
    rows
}

/// A node of a walk, and where the walk goes next.
fn step(node: &Node, table: &Table, point: &[f32]) -> (Walked, Option<usize>) {
    let (low, high, mass, next) = match node {
        Node::Leaf {
            point: index, mass, ..
        } => {
            let reading = table.point(*index).expect("written");
            (reading, reading, *mass, None)
        }
        Node::Branch {
            dimension,
            cut,
            left,
            right,
            mass,
            low,
            high,
            ..
        } => {
            let goes_left = point[*dimension] <= *cut;
            let next = if goes_left { *left } else { *right };
            (&low[..], &high[..], *mass, Some(next))
        }
    };
    let row = Walked {
        id: id(node),
        mass,
        low: low.to_vec(),
        high: high.to_vec(),
    };
    (row, next)
}

/// The form that an add leaves, and the words it takes: none for a value held or into an empty
/// tree, else one for each node from the leaf to the root, and the highest box whose cut parts
/// wins.
pub fn form_after_add(
    tree: &Tree,
    table: &Table,
    index: usize,
    capacity: usize,
    words: &[u64],
) -> (Form, usize) {
    let point = table.point(index).expect("written");
    let leaf = index + capacity;
    let mut after = form(tree, table);
    let rows = walk(tree, table, point);
    assert_eq!(walk_nodes(tree, point), rows.len());
    if rows.is_empty() {
        after.root = Some(leaf);
        return (after, 0);
    }
    if rows[0].low == point {
        after.change_masses(&rows[1..], 1);
        return (after, 0);
    }
    let (place, dimension, cut) = highest_parting(&rows, point, words);
    let old = rows[place].id;
    let (new, _) = *free_intervals(tree).last().expect("a free branch");
    let goes_left = point[dimension] <= cut;
    after.replace(old, new);
    after.change_masses(&rows[place + 1..], 1);
    let added = Branch {
        dimension,
        cut_bits: cut.to_bits(),
        left: if goes_left { leaf } else { old },
        right: if goes_left { old } else { leaf },
        mass: rows[place].mass + 1,
    };
    after.branches.insert(new, added);
    (after, rows.len())
}

/// The highest node of the walk whose cut parts, with that cut.
fn highest_parting(rows: &[Walked], point: &[f32], words: &[u64]) -> (usize, usize, f32) {
    let parting = rows
        .iter()
        .zip(words)
        .enumerate()
        .filter_map(
            |(place, (row, &word))| match cut_choice(&row.low, &row.high, point, word) {
                Choice::Cut {
                    dimension,
                    value,
                    parts: true,
                } => Some((place, dimension, value)),
                _ => None,
            },
        );
    parting.last().expect("a leaf's cut always parts")
}

/// The form that the delete of one of a value's copies leaves: at the last one the sibling
/// replaces the parent.
pub fn form_after_delete(tree: &Tree, table: &Table, index: usize, copies: usize) -> Form {
    let point = table.point(index).expect("written");
    let mut after = form(tree, table);
    let rows = walk(tree, table, point);
    if copies > 1 {
        after.change_masses(&rows[1..], -1);
    } else if rows.len() == 1 {
        after.root = None;
    } else {
        let parent = after.branches.remove(&rows[1].id).expect("a branch");
        let leaf_is_left = parent.left == rows[0].id;
        let sibling = if leaf_is_left {
            parent.right
        } else {
            parent.left
        };
        after.replace(rows[1].id, sibling);
        after.change_masses(&rows[2..], -1);
    }
    after
}

/// Everything that document 01 says of a tree that holds `counts`.
pub fn check_tree(tree: &Tree, table: &Table, counts: &Counts, capacity: usize, share: f64) {
    let all = nodes(tree, table);
    check_leaves(&all, table, counts, capacity);
    check_numbers(&all, tree, capacity);
    check_rust_masses(&all, tree);
    assert_eq!(total(tree), counts.values().sum::<usize>());
    let limit = (share * capacity as f64) as usize;
    let mut rest = all.iter();
    if let Some(root) = rest.next() {
        check_side(root, &mut rest, table, limit);
    }
    assert!(rest.next().is_none());
}

/// One leaf for each value held, with its copies, which are its mass.
fn check_leaves(all: &[Node], table: &Table, counts: &Counts, capacity: usize) {
    let mut found = Counts::new();
    for node in all {
        if let Node::Leaf {
            id,
            point,
            copies,
            mass,
        } = *node
        {
            assert_eq!(id, point + capacity);
            assert_eq!(mass, copies);
            assert_eq!(found.insert(value_at(table, point), copies), None);
        }
    }
    assert_eq!(found, *counts);
}

/// What docs/DIFFERENCES.md says of the Rust's own masses, 1.2 and 1.3: one less on a leaf of more than one copy, the
/// same or one less on a branch.
fn check_rust_masses(all: &[Node], tree: &Tree) {
    for node in all {
        let own = rust_mass(tree, id(node));
        match *node {
            Node::Leaf { copies, .. } => assert_eq!(own, copies.max(2) - 1),
            Node::Branch { mass, .. } => assert!(own == mass || own + 1 == mass),
        }
    }
}

/// Used and free branch numbers fill 0 to c - 2 exactly once.
fn check_numbers(all: &[Node], tree: &Tree, capacity: usize) {
    let used = all
        .iter()
        .filter(|n| matches!(n, Node::Branch { .. }))
        .map(id);
    let free = free_intervals(tree)
        .into_iter()
        .flat_map(|(start, end)| start..=end);
    let numbers: Vec<usize> = used.chain(free).collect();
    assert_eq!(numbers.len(), capacity - 1);
    assert_eq!(
        numbers.into_iter().collect::<BTreeSet<_>>(),
        (0..capacity - 1).collect()
    );
}

/// The readings below a node that comes first in printed order, and their copies. Checks at each
/// branch the cut clause, the box, the mass and whether it is cached.
fn check_side<'a>(
    node: &Node,
    rest: &mut Iter<Node>,
    table: &'a Table,
    limit: usize,
) -> (Vec<&'a [f32]>, usize) {
    match node {
        Node::Leaf { point, copies, .. } => (vec![table.point(*point).expect("written")], *copies),
        Node::Branch {
            id: number,
            dimension,
            cut,
            left,
            right,
            mass,
            cached,
            low,
            high,
        } => {
            let mut side = |expected: usize| {
                let next = rest.next().expect("a branch has two sides");
                assert_eq!(id(next), expected);
                check_side(next, rest, table, limit)
            };
            let (mut readings, copies_left) = side(*left);
            let (others, copies_right) = side(*right);
            assert!(readings.iter().all(|x| x[*dimension] <= *cut));
            assert!(others.iter().all(|x| x[*dimension] > *cut));
            readings.extend(others);
            for i in 0..low.len() {
                let side = || readings.iter().map(|x| x[i]);
                assert_eq!(low[i], side().fold(f32::INFINITY, f32::min));
                assert_eq!(high[i], side().fold(f32::NEG_INFINITY, f32::max));
            }
            let copies = copies_left + copies_right;
            assert_eq!(*mass, copies);
            assert_eq!(*cached, *number < limit);
            (readings, copies)
        }
    }
}

/// The walk report of a query near the readings, against the definition of document 01.
fn check_report(tree: &Tree, table: &Table, query: &[f32]) {
    let rows = report(tree, table, &Masses::of(tree), query).expect("written points");
    let defined = defined_report(tree, table, query);
    assert_eq!(rows.len(), defined.len());
    for (row, defined) in rows.iter().zip(&defined) {
        assert_eq!(row, defined);
        assert_eq!(row.probability.to_bits(), defined.probability.to_bits());
    }
}

/// The rows that document 01 and request A.7 define for a query, from the leaf to the root.
pub fn defined_report(tree: &Tree, table: &Table, query: &[f32]) -> Vec<Row> {
    let walked = walk(tree, table, query);
    let row = |(n, walked_here): (usize, &Walked)| Row {
        id: walked_here.id,
        depth: walked.len() - 1 - n,
        mass: walked_here.mass,
        probability: match n {
            0 => f64::from(walked_here.low != query),
            _ => probability(walked_here, query),
        },
    };
    walked.iter().enumerate().map(row).collect()
}

/// S / (W + S) by one division, S being the computed sum, which is the whole-number sum up to 8 channels and no further from it than 126
/// up to 32.
fn probability(row: &Walked, query: &[f32]) -> f64 {
    let sum = Sum::outside(&row.low, &row.high, query);
    let most = if query.len() <= 8 { 0 } else { 126 };
    assert!(sum.off() <= most, "{sum:?} of {query:?}");
    sum.probability()
}

/// Readings of a run.
pub const READINGS: usize = 96;

/// What the runs draw from: limits of a tree, and readings.
pub struct Setting {
    pub channels: usize,
    pub capacity: usize,
    pub share: f64,
    span: i32,
}

impl Setting {
    pub fn draw(words: &mut Words) -> Self {
        let any = (words.word() >> 11) as f64 / (1u64 << 53) as f64;
        let shares = [
            0.0,
            5e-324,
            0.25,
            0.29,
            1.0 / 3.0,
            0.49,
            0.5,
            1.0 / 49.0,
            1.0,
            any,
            any,
        ];
        Setting {
            channels: Widths::All.channels(words) as usize,
            capacity: words.one_of(&[2, 2, 3, 3, 4, 5, 6, 8, 13, 16, 33, 49, 64, 256]),
            share: words.one_of(&shares),
            span: words.one_of(&[1, 2, 4, 20, 1 << 10, 1 << 20]),
        }
    }

    pub fn reading(&self, words: &mut Words) -> Vec<f32> {
        (0..self.channels)
            .map(|_| words.between(-self.span, self.span) as f32)
            .collect()
    }

    /// A table with all the readings of a run.
    pub fn table(&self, words: &mut Words) -> Table {
        let mut table = Table::new();
        for index in 0..READINGS {
            table.put(index, &self.reading(words));
        }
        table
    }

    /// Everything that document 01 says of a tree that holds `counts`, and of a report.
    pub fn check(&self, tree: &Tree, table: &Table, counts: &Counts, words: &mut Words) {
        check_tree(tree, table, counts, self.capacity, self.share);
        check_report(tree, table, &self.reading(words));
    }

    /// As many words as any walk takes.
    pub fn words(&self, words: &mut Words) -> Vec<u64> {
        let mut word = || {
            let any = words.word();
            words.one_of(&[any, any, any, 0, u64::MAX, 1 << 63, any << 60])
        };
        (0..self.capacity).map(|_| word()).collect()
    }
}
