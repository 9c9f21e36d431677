//! The Rust's own masses beside the counted ones: entries 1.2 to 1.4 of docs/DIFFERENCES.md on their smallest inputs, and the
//! page's table of document 01's examples, whose rows are made here and have to stand in the page.
use crate::differences::{grown, HALF};
use crate::examples::{line, two_held};
use oracle::{ids, printed, report, rust_mass, shown, BareTree, Masses, Row, Table, Tree};

const PAGE: &str = include_str!(concat!(
    env!("CARGO_MANIFEST_DIR"),
    "/../../docs/DIFFERENCES.md"
));

/// Masses of the same nodes.
#[derive(Clone, Debug, PartialEq)]
struct Both {
    rust: Vec<usize>,
    counted: Vec<usize>,
}

/// Looks at the entries and the table, and answers how many there are.
pub fn run() -> usize {
    let entries: [fn(); 4] = [
        of_copies,
        of_a_branch_above_copies,
        of_a_branch_after_deletes,
        in_rows_and_list,
    ];
    for look in entries {
        look();
    }
    let rows = rows_of_the_page();
    for row in &rows {
        assert!(PAGE.contains(row.as_str()), "not in the page: {row}");
    }
    entries.len() + rows.len()
}

/// Those of all nodes, in printed order.
fn both(tree: &Tree) -> Both {
    let masses = Masses::of(tree);
    let each = |mass: &dyn Fn(usize) -> usize| ids(tree).into_iter().map(mass).collect();
    Both {
        rust: each(&|id| rust_mass(tree, id)),
        counted: each(&|id| masses.of_node(id)),
    }
}

/// Those of a report's rows, from the leaf to the root.
fn of_rows(bare: &BareTree, table: &Table, query: f32) -> Both {
    let masses = |rows: Vec<Row>| rows.iter().map(|row| row.mass).collect();
    let (tree, query) = (bare.tree(), [query]);
    Both {
        rust: masses(shown(tree, table, &query).unwrap()),
        counted: masses(report(tree, table, &Masses::of(tree), &query).unwrap()),
    }
}

fn are(rust: &[usize], counted: &[usize]) -> Both {
    Both {
        rust: rust.to_vec(),
        counted: counted.to_vec(),
    }
}

/// A lone leaf of 1, 2, 3 and 4 copies: 1.2.
fn of_copies() {
    assert_eq!(lone_leaves(), are(&[1, 1, 2, 3], &[1, 2, 3, 4]));
}

/// 1.3: the same leaves and the same shape have other masses in the Rust.
fn of_a_branch_above_copies() {
    let table = line(&[0.0, 8.0]);
    let after = |indices: &[usize]| both(grown(&table, 4, indices).tree());
    assert_eq!(after(&[0, 0, 1]), are(&[2, 1, 1], &[3, 2, 1]));
    assert_eq!(after(&[0, 1, 0]), are(&[3, 1, 1], &[3, 2, 1]));
    assert_eq!(branches_above(), are(&[2, 2, 3, 4], &[2, 3, 4, 5]));
}

/// 1.4: what is missing stays missing.
fn of_a_branch_after_deletes() {
    let table = line(&[0.0, 8.0]);
    let mut bare = grown(&table, 4, &[0, 0, 1]);
    bare.delete(&table, 0).unwrap();
    assert_eq!(both(bare.tree()), are(&[1, 1, 1], &[2, 1, 1]));
}

/// The same in reports and in the printed tree.
fn in_rows_and_list() {
    let table = line(&[0.0, 8.0]);
    let twice = grown(&table, 4, &[0, 0]);
    assert_eq!(of_rows(&twice, &table, 0.0), are(&[1], &[2]));
    let above = grown(&table, 4, &[0, 0, 1]);
    assert_eq!(of_rows(&above, &table, 0.0), are(&[1, 2], &[2, 3]));
    assert_eq!(of_rows(&above, &table, 12.0), are(&[1, 2], &[1, 3]));
    let text = "id dimension cut left right mass\n\
                0 0 40800000 4 5 3\n\
                4 - - - - 2\n\
                5 - - - - 1\n";
    assert_eq!(printed(above.tree()), text);
}

/// Of leaves of 1, 2, 3 and 4 copies, each alone.
fn lone_leaves() -> Both {
    let table = line(&[0.0]);
    joined((1..=4).map(|copies| both(grown(&table, 4, &[0; 4][..copies]).tree())))
}

/// Of the branches made above such leaves.
fn branches_above() -> Both {
    let table = line(&[0.0, 8.0]);
    joined((1..=4).map(|copies| {
        let mut bare = grown(&table, 4, &[0; 4][..copies]);
        bare.add(&table, 1, &[HALF]).unwrap();
        let all = both(bare.tree());
        are(&all.rust[..1], &all.counted[..1])
    }))
}

fn joined(each: impl Iterator<Item = Both>) -> Both {
    let mut all = are(&[], &[]);
    for both in each {
        all.rust.extend(both.rust);
        all.counted.extend(both.counted);
    }
    all
}

/// Those of trees that all have the same.
fn alike(each: impl IntoIterator<Item = Both>) -> Both {
    let mut each = each.into_iter();
    let first = each.next().expect("a tree");
    assert!(each.all(|both| both == first));
    first
}

/// The first reading added alone, then the second with a word; the tree of each word.
fn cut_by(readings: [&[f32]; 2], words: &[u64]) -> Both {
    let mut table = Table::new();
    for (index, reading) in readings.into_iter().enumerate() {
        table.put(index, reading);
    }
    alike(words.iter().map(|word| {
        let mut bare = BareTree::make(readings[0].len(), 4, 1.0).unwrap();
        bare.add(&table, 0, &[]).unwrap();
        bare.add(&table, 1, &[*word]).unwrap();
        both(bare.tree())
    }))
}

/// After both of document 01's samples.
fn sampled() -> Both {
    alike([-1.0, -2.0].map(|third| {
        let (mut sampled, table) = two_held([-1.0, -3.0]);
        sampled.arrive(&table, 2, third, 0, &[HALF; 2]).unwrap();
        both(sampled.tree())
    }))
}

/// Of the rows of a report on a box from 0 to 8, of both queries.
fn reported() -> Both {
    let table = line(&[0.0, 8.0]);
    let two = grown(&table, 4, &[0, 1]);
    alike([12.0, 8.0].map(|query| of_rows(&two, &table, query)))
}

/// The rows of the page's table: each example of document 01 that has a mass.
fn rows_of_the_page() -> Vec<String> {
    let list = grown(&line(&[0.0, 8.0, 2.0]), 4, &[0, 1, 2]);
    let one_channel = cut_by([&[0.0], &[8.0]], &[0, HALF, u64::MAX]);
    let two_channels = cut_by([&[0.0, 0.0], &[2.0, 6.0]], &[HALF / 2, HALF]);
    vec![
        row("the printed list, in its order", both(list.tree())),
        row(
            "leaf 0, point 8, each of the three words: branch, leaves",
            one_channel,
        ),
        row(
            "leaf (0,0), point (2,6), both words: branch, leaves",
            two_channels,
        ),
        row(
            "box 0 to 8, queries 12 and 8: rows of leaf and branch",
            reported(),
        ),
        row(
            "capacity 2, weights −1, −3 and then −1 or −2: branch, leaves",
            sampled(),
        ),
        row("a leaf of 1, 2, 3, 4 copies", lone_leaves()),
        row(
            "a branch made above a leaf of 1, 2, 3, 4 copies",
            branches_above(),
        ),
    ]
}

fn row(name: &str, both: Both) -> String {
    let text = |masses: &[usize]| {
        let numbers: Vec<String> = masses.iter().map(usize::to_string).collect();
        numbers.join(", ")
    };
    let changes = match both.rust == both.counted {
        true => "no",
        false => "yes",
    };
    let (rust, counted) = (text(&both.rust), text(&both.counted));
    format!("| {name} | {rust} | {counted} | {changes} |\n")
}
