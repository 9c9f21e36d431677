use crate::{feed, Table};
use rcflib::samplerplustree::randomcuttree::RCFTree;
use rcflib::samplerplustree::samplerplustree::SamplerPlusTree;
use rcflib::types::Result;

/// The tree of the Rust. The widths are channel u8, child u16, mass u16: leaf ids reach 1,279, and
/// masses are kept less one, so the largest total of document 01, 65,535, fits.
pub type Tree = RCFTree<u8, u16, u16>;

/// No attribute: attributes are off.
const NO_ATTRIBUTE: usize = usize::MAX;

/// The answer to an add: the leaf's point index and the words taken.
#[derive(Clone, Copy, Debug, PartialEq)]
pub struct Added {
    pub leaf: usize,
    pub words: usize,
}

/// The answer to an accepted arrival: its add, and the evicted index if there is one.
#[derive(Clone, Copy, Debug, PartialEq)]
pub struct Arrived {
    pub added: Added,
    pub evicted: Option<usize>,
}

/// A tree that takes adds and deletes only.
///
/// Where the Rust answers an error it has already changed its count of copies, so a call that the
/// port refuses is left out here, or made on a clone.
#[derive(Clone)]
pub struct BareTree {
    tree: Tree,
}

impl BareTree {
    /// `share` is the cached share.
    pub fn make(channels: usize, capacity: usize, share: f64) -> Result<Self> {
        let tree = Tree::new(channels, capacity, false, false, false, false, share, 0)?;
        Ok(BareTree { tree })
    }

    /// Adds the point at `index`. Panics if the walk takes more words than given; c - 1 always do.
    pub fn add(&mut self, table: &Table, index: usize, words: &[u64]) -> Result<Added> {
        feed::set(words);
        let leaf = self.tree.add(index, NO_ATTRIBUTE, table)?;
        Ok(Added {
            leaf,
            words: feed::taken(),
        })
    }

    /// Deletes one copy of the point at `index` and answers the leaf's point index.
    pub fn delete(&mut self, table: &Table, index: usize) -> Result<usize> {
        self.tree.delete(index, NO_ATTRIBUTE, table)
    }

    pub fn tree(&self) -> &Tree {
        &self.tree
    }
}

/// Any tree, to go on as a bare one.
impl From<Tree> for BareTree {
    fn from(tree: Tree) -> Self {
        BareTree { tree }
    }
}

/// A tree with its sample, that takes arrivals only.
#[derive(Clone)]
pub struct SampledTree {
    both: SamplerPlusTree<u8, u16, u16>,
}

impl SampledTree {
    pub fn make(channels: usize, capacity: usize, share: f64, initial: f64) -> Result<Self> {
        let both = SamplerPlusTree::new(
            channels, capacity, false, 0, false, false, false, 0.0, initial, share,
        )?;
        Ok(SampledTree { both })
    }

    /// An arrival, through the unchanged `SamplerPlusTree::update`. `None`: not accepted.
    ///
    /// `update` makes the weight ln(-ln(u)) - entries_seen * time_decay. With u = 1/e the first
    /// term is exactly 0, and with entries_seen 1 and time_decay = -weight the rest is exactly the
    /// wanted weight. It draws the starting word only while the sample isn't full.
    pub fn arrive(
        &mut self,
        table: &Table,
        index: usize,
        weight: f32,
        start: u64,
        words: &[u64],
    ) -> Result<Option<Arrived>> {
        let starting = !self.both.oracle_sampler().is_full();
        let fed: Vec<u64> = starting
            .then_some(start)
            .into_iter()
            .chain(words.iter().copied())
            .collect();
        feed::set(&fed);
        let (leaf, evicted) = self.arrive_fed(table, index, weight, draw_of_no_weight())?;
        if leaf == usize::MAX {
            return Ok(None);
        }
        let added = Added {
            leaf,
            words: feed::taken() - usize::from(starting),
        };
        let evicted = (evicted != usize::MAX).then_some(evicted);
        Ok(Some(Arrived { added, evicted }))
    }

    /// The same by words that were fed before, so that many arrivals take from them in turn: the leaf's
    /// index and the evicted one as the Rust gives them, the largest number where there is none. The draw
    /// is that of no weight.
    #[inline]
    pub fn arrive_fed(
        &mut self,
        table: &Table,
        index: usize,
        weight: f32,
        draw_of_no_weight: f64,
    ) -> Result<(usize, usize)> {
        feed::set_first(draw_of_no_weight);
        self.both.oracle_set_clock(-f64::from(weight), 1);
        let ((leaf, _), (evicted, _)) = self.both.update(index, NO_ATTRIBUTE, table)?;
        Ok((leaf, evicted))
    }

    /// The starting chance at a fill, by the unchanged `initial_accept_probability`.
    pub fn chance(&self, fill: f64) -> f64 {
        self.both.oracle_chance(fill)
    }

    pub fn tree(&self) -> &Tree {
        self.both.oracle_tree()
    }

    /// Weight and index of each held reading, from the top of the Rust's heap.
    pub fn heap(&self) -> Vec<(f32, usize)> {
        self.both.oracle_sampler().oracle_heap()
    }
}

/// The draw u with ln(-ln(u)) = 0.
pub fn draw_of_no_weight() -> f64 {
    let u = (-1.0f64).exp();
    assert!((-u.ln()).ln() == 0.0, "ln(-ln(1/e)) is not 0 here");
    u
}
