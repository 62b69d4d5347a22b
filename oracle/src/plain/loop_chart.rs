//! 001's Definition 3.1 on explicit subcharts.
use std::collections::{BTreeMap, BTreeSet};

/// The part of a chart that is reached from `start`; actions play no part in
/// L1 to L3 and are left out.
#[derive(Clone, PartialEq, Eq, Debug)]
pub struct Subchart {
    pub start: usize,
    /// For each vertex of the subchart, its successors.
    pub successors: BTreeMap<usize, BTreeSet<usize>>,
}

impl Subchart {
    /// The subchart generated from `start`, where `targets` gives each
    /// vertex's successors.
    pub fn generated(start: usize, targets: impl Fn(usize) -> BTreeSet<usize>) -> Subchart {
        let mut successors = BTreeMap::new();
        let mut to_visit = vec![start];
        while let Some(vertex) = to_visit.pop() {
            if !successors.contains_key(&vertex) {
                let next = targets(vertex);
                to_visit.extend(&next);
                successors.insert(vertex, next);
            }
        }
        Subchart { start, successors }
    }

    /// L1: there is an endless path from the start.
    pub fn has_endless_path(&self) -> bool {
        endless_vertices(&self.successors).contains(&self.start)
    }

    /// L2: every endless path from the start returns to it. A path that never
    /// returns is a path that never takes a step into the start.
    pub fn endless_paths_return(&self) -> bool {
        let mut without_return = self.successors.clone();
        for next in without_return.values_mut() {
            next.remove(&self.start);
        }
        !endless_vertices(&without_return).contains(&self.start)
    }

    /// L3: the end isn't in it.
    pub fn lacks_the_end(&self) -> bool {
        !self.successors.contains_key(&0)
    }

    /// The first of L1, L2, L3 that is broken; None for a loop chart.
    pub fn first_broken(&self) -> Option<u64> {
        if !self.has_endless_path() {
            Some(1)
        } else if !self.endless_paths_return() {
            Some(2)
        } else if !self.lacks_the_end() {
            Some(3)
        } else {
            None
        }
    }
}

/// The vertices at which an endless path starts: the largest set in which
/// every vertex has a successor in the set.
pub fn endless_vertices(successors: &BTreeMap<usize, BTreeSet<usize>>) -> BTreeSet<usize> {
    let mut endless: BTreeSet<usize> = successors.keys().copied().collect();
    loop {
        let keep: BTreeSet<usize> = endless
            .iter()
            .copied()
            .filter(|vertex| successors[vertex].iter().any(|next| endless.contains(next)))
            .collect();
        if keep == endless {
            return endless;
        }
        endless = keep;
    }
}
