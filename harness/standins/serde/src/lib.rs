//! Stands in for `serde`'s derives. Nothing is serialized: `Deserialize` adds nothing, and
//! `Serialize` adds `oracle_` functions that read private fields, beside the unchanged source, and one
//! that calls a private function, `oracle_chance`.
//! It can't change what is compared: the given Rust calls none of them. One of them writes,
//! `oracle_set_clock`, and it sets only the two numbers from which `update` makes the weight.
use proc_macro::{TokenStream, TokenTree};

#[proc_macro_derive(Deserialize, attributes(serde))]
pub fn deserialize(_: TokenStream) -> TokenStream {
    TokenStream::new()
}

#[proc_macro_derive(Serialize, attributes(serde))]
pub fn serialize(input: TokenStream) -> TokenStream {
    let code = match struct_name(input).as_str() {
        "IntervalStoreManager" => INTERVALS.to_string(),
        "Sampler" => SAMPLER.to_string(),
        "VectorNodeStore" => for_widths("VectorNodeStore", NODE_STORE),
        "RCFTree" => for_widths("RCFTree", TREE),
        "SamplerPlusTree" => for_widths("SamplerPlusTree", SAMPLED_TREE),
        _ => String::new(),
    };
    code.parse().expect("the added functions are Rust")
}

/// The name after the word `struct`.
fn struct_name(input: TokenStream) -> String {
    let mut names = input.into_iter().filter_map(|token| match token {
        TokenTree::Ident(name) => Some(name.to_string()),
        _ => None,
    });
    names.find(|name| name == "struct");
    names.next().unwrap_or_default()
}

/// An `impl` over the three widths, with the bounds that the given structs carry.
fn for_widths(name: &str, body: &str) -> String {
    format!(
        "impl<C, P, N> {name}<C, P, N>
        where
            C: crate::types::Location, usize: From<C>,
            P: crate::types::Location, usize: From<P>,
            N: crate::types::Location, usize: From<N>,
        {{ {body} }}"
    )
}

const INTERVALS: &str = "impl<T: Copy> IntervalStoreManager<T> {
    /// The free intervals from the bottom of the stack.
    pub fn oracle_intervals(&self) -> Vec<(T, T)> {
        (0..self.last_in_use)
            .map(|i| (self.free_indices_start[i], self.free_indices_end[i])).collect()
    }
    pub fn oracle_last_in_use(&self) -> usize { self.last_in_use }
}";

const SAMPLER: &str = "impl<P: Copy> Sampler<P> where usize: From<P> {
    /// Weight and point index, from the top of the heap.
    pub fn oracle_heap(&self) -> Vec<(f32, usize)> {
        (0..self.current_size).map(|i| (self.weights[i], self.points[i].into())).collect()
    }
    /// What `accept_point` answers: whether it accepts, the index and the weight that it evicts.
    pub fn oracle_told(state: &SamplerAcceptState) -> (bool, usize, f32) {
        (state.eviction_occurred, state.point_index, state.evicted_weight)
    }
}";

const NODE_STORE: &str = "
    pub fn oracle_manager(&self) -> &IntervalStoreManager<usize> { &self.internal_node_manager }
    /// Copies of the leaf of this point index, if it is a leaf.
    pub fn oracle_copies(&self, point_index: usize) -> usize {
        self.hash_mass_leaves.get(&point_index).map_or(1, |more| *more + 1)
    }
    /// Branches below this number are cached.
    pub fn oracle_cache_limit(&self) -> usize { self.range_sum_data.len() }
    /// The kept sum of a cached box's sides.
    pub fn oracle_range_sum(&self, branch: usize) -> f64 { self.range_sum_data[branch] }
";

const TREE: &str = "
    pub fn oracle_store(&self) -> &VectorNodeStore<C, P, N> { &self.node_store }
    pub fn oracle_root(&self) -> usize { self.root }
    pub fn oracle_tree_mass(&self) -> usize { self.tree_mass }
";

const SAMPLED_TREE: &str = "
    pub fn oracle_tree(&self) -> &RCFTree<C, P, N> { &self.tree }
    pub fn oracle_sampler(&self) -> &Sampler<P> { &self.sampler }
    /// The starting chance at a fill.
    pub fn oracle_chance(&self, fill_fraction: f64) -> f64
    where
        <C as TryFrom<usize>>::Error: std::fmt::Debug,
        <P as TryFrom<usize>>::Error: std::fmt::Debug,
        <N as TryFrom<usize>>::Error: std::fmt::Debug,
    {
        self.initial_accept_probability(fill_fraction)
    }
    pub fn oracle_set_clock(&mut self, time_decay: f64, entries_seen: usize) {
        self.time_decay = time_decay;
        self.entries_seen = entries_seen;
    }
";
