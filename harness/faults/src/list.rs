//! The faults: what the Rust says in one place, and what it is made to say instead.

pub struct Fault {
    pub name: &'static str,
    /// The file below `given/samplerplustree`.
    pub file: &'static str,
    /// What stands there, an expression.
    pub from: &'static str,
    /// Which of the places where it stands, from 0.
    pub nth: usize,
    /// What stands there instead.
    pub to: &'static str,
}

const fn fault(
    name: &'static str,
    file: &'static str,
    from: &'static str,
    nth: usize,
    to: &'static str,
) -> Fault {
    Fault {
        name,
        file,
        from,
        nth,
        to,
    }
}

const SAMPLER: &str = "sampler.rs";
const SAMPLED: &str = "samplerplustree.rs";
const VIEW: &str = "nodeview.rs";
const STORE: &str = "nodestore.rs";
const BOX: &str = "boundingbox.rs";

/// Faults of the sampler, of the starting chance and of what `update` keeps, then of reports. They are
/// numbered from 1.
pub const FAULTS: [Fault; 20] = [
    fault(
        "an equal weight evicts",
        SAMPLER,
        "weight < self.weights[0]",
        0,
        "weight <= self.weights[0]",
    ),
    fault(
        "an entry rises past an equal weight",
        SAMPLER,
        "self.weights[tmp] < self.weights[current]",
        0,
        "self.weights[tmp] <= self.weights[current]",
    ),
    fault(
        "of two equal children the right one rises",
        SAMPLER,
        "self.weights[2 * current + 2] > self.weights[max_index]",
        0,
        "self.weights[2 * current + 2] >= self.weights[max_index]",
    ),
    fault(
        "an entry sinks below an equal weight",
        SAMPLER,
        "self.weights[max_index] > self.weights[current]",
        0,
        "self.weights[max_index] >= self.weights[current]",
    ),
    fault(
        "a right child at the heap's end is overlooked",
        SAMPLER,
        "2 * current + 2 < self.current_size",
        0,
        "2 * current + 3 < self.current_size",
    ),
    fault(
        "an eviction leaves the evicted index at the top",
        SAMPLER,
        "self.points[0] = self.points[current]",
        0,
        "()",
    ),
    fault(
        "the sample keeps the arrival's own index",
        SAMPLED,
        "self.sampler.add_point(added_ref)?",
        0,
        "self.sampler.add_point(point_index)?",
    ),
    fault(
        "a word at the chance starts",
        SAMPLED,
        "other_random < self.initial_accept_probability(fill_fraction)",
        0,
        "other_random <= self.initial_accept_probability(fill_fraction)",
    ),
    fault(
        "the chance falls from an empty sample on",
        SAMPLED,
        "(fill_fraction - self.initial_accept_fraction)",
        0,
        "fill_fraction",
    ),
    fault(
        "the chance falls by the fill alone",
        SAMPLED,
        "(1.0 - self.initial_accept_fraction)",
        0,
        "1.0",
    ),
    fault(
        "a leaf is never equal to the query",
        VIEW,
        "point_store.is_equal(point, self.leaf_index)?",
        0,
        "false",
    ),
    fault(
        "a branch's row keeps the leaf's id",
        VIEW,
        "self.current_node = index",
        0,
        "()",
    ),
    fault(
        "depths grow from the leaf up",
        VIEW,
        "self.depth -= 1",
        0,
        "self.depth += 1",
    ),
    fault(
        "a query at the cut goes right",
        VIEW,
        "node_store.is_left_of(self.current_node, point)",
        0,
        "point[node_store.cut_dimension(self.current_node)] < node_store.cut_value(self.current_node)",
    ),
    fault(
        "of a cached box only what lies above counts",
        STORE,
        "maxsum + minsum",
        0,
        "maxsum",
    ),
    fault(
        "of another box only what lies below counts",
        BOX,
        "maxsum + minsum",
        0,
        "minsum",
    ),
    fault(
        "a probability is divided by the sides alone",
        STORE,
        "(self.range_sum_data[node_idx] + sum as f64)",
        0,
        "self.range_sum_data[node_idx]",
    ),
    fault(
        "a box on the way up is not grown",
        VIEW,
        "node_store.grow_node_box(x, point_store, index, sibling)?",
        0,
        "()",
    ),
    // made where two faults above have left what stood there
    fault(
        "of a cached box what lies below and above is added up in one chain",
        STORE,
        "maxsum + minsum",
        0,
        "(0..point.len()).map(|i| (minarray[i] - point[i]).max(0.0) + (point[i] - maxarray[i]).max(0.0)).sum::<f32>()",
    ),
    fault(
        "of another box what lies below and above is added up in one chain",
        BOX,
        "maxsum + minsum",
        0,
        "(0..point.len()).map(|i| (self.min_values[i] - point[i]).max(0.0) + (point[i] - self.max_values[i]).max(0.0)).sum::<f32>()",
    ),
];
