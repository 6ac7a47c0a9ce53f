//! Pages written for each update, and in how many runs of neighbouring pages: the index, a B+-tree in
//! place, and condition 3's allowance.

use second::geometry::Geometry;

use crate::bplus::Tree;
use crate::trace::{Update, Values};

/// The pages that a trace writes.
pub struct Pages {
    pub updates: usize,
    pub ours: usize,
    pub tree: usize,
    pub allowed: usize,
    /// A merge into level i writes that level's pages as one run, and those of each level rebuilt
    /// above it as another.
    pub our_runs: usize,
    pub tree_runs: usize,
}

impl Pages {
    /// How many times fewer the index writes than the tree.
    pub fn fewer(&self) -> f64 {
        self.tree as f64 / self.ours as f64
    }
}

/// The pages of a trace whose updates returned these values.
pub fn count(geometry: Geometry, trace: &[Update], values: &[Values]) -> Pages {
    let mut tree = Tree::new();
    for update in trace {
        match *update {
            Update::Put(pair) => tree.put(pair),
            Update::Drop(pair) => tree.drop(pair),
        }
    }
    Pages {
        updates: trace.len(),
        ours: values.iter().map(|values| values[2] as usize).sum(),
        tree: tree.written,
        allowed: geometry.pages_allowed(trace.len()),
        our_runs: values.iter().map(runs_down_to).sum(),
        tree_runs: tree.runs,
    }
}

/// The runs of an update that merged into levels 1 to its deepest.
fn runs_down_to(values: &Values) -> usize {
    (1..=values[1] as usize).sum()
}
