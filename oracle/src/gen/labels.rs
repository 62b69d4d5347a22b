//! Labellings: 001's refined rules, and a search by repeated elimination.
use super::rng::Rng;
use crate::plain::{check_labelling, Chart, Node};

/// 001's refined rules on the expression's chart: one label for each of its
/// transitions. The level is 1 plus the star height of what is repeated.
///
/// 001's vertices are expressions; here a product and its left operand are two
/// vertices with one residual, and loops return to the operand's. So where the
/// rules hand an entry on from left operand to product, it is a branch here.
pub fn by_refined_rules(nodes: &[Node], chart: &Chart) -> Vec<u8> {
    chart
        .transitions
        .iter()
        .map(|t| {
            let steps = refined_steps(nodes, t.from - 1);
            let found = steps.into_iter().find(|(leaf, _)| {
                let to = crate::plain::climb(nodes, *leaf).map_or(0, |node| node + 1);
                nodes[*leaf] == Node::Action(t.action) && to == t.to
            });
            found.expect("every transition has a leaf").1
        })
        .collect()
}

/// The leaves at which a node's steps begin, with their labels.
fn refined_steps(nodes: &[Node], node: usize) -> Vec<(usize, u8)> {
    let as_branches = |operand: usize| {
        refined_steps(nodes, operand)
            .into_iter()
            .map(|(leaf, _)| (leaf, 0))
    };
    match nodes[node] {
        Node::Deadlock => vec![],
        Node::Action(_) => vec![(node, 0)],
        Node::Sum(l, r) => as_branches(l).chain(as_branches(r)).collect(),
        Node::Product(l, _) => as_branches(l).collect(),
        Node::Star(l, r) => {
            let label = if normed(nodes, l) {
                star_height(nodes, l) + 1
            } else {
                0
            };
            let entries = refined_steps(nodes, l)
                .into_iter()
                .map(|(leaf, _)| (leaf, label));
            entries.chain(as_branches(r)).collect()
        }
    }
}

/// Whether the node has a path to the end.
fn normed(nodes: &[Node], node: usize) -> bool {
    match nodes[node] {
        Node::Deadlock => false,
        Node::Action(_) => true,
        Node::Sum(l, r) => normed(nodes, l) || normed(nodes, r),
        Node::Product(l, r) => normed(nodes, l) && normed(nodes, r),
        Node::Star(_, r) => normed(nodes, r),
    }
}

fn star_height(nodes: &[Node], node: usize) -> u8 {
    match nodes[node] {
        Node::Deadlock | Node::Action(_) => 0,
        Node::Sum(l, r) | Node::Product(l, r) => star_height(nodes, l).max(star_height(nodes, r)),
        Node::Star(l, r) => (star_height(nodes, l) + 1).max(star_height(nodes, r)),
    }
}

/// A labelling found by taking out loops until no endless path is left; None
/// where a few tries find none.
pub fn by_search(rng: &mut Rng, chart: &Chart) -> Option<Vec<u8>> {
    (0..6).find_map(|_| {
        let labels = Search::new(chart).run(rng)?;
        check_labelling(chart, &labels).is_ok().then_some(labels)
    })
}

struct Search<'a> {
    chart: &'a Chart,
    labels: Vec<u8>,
    /// Each vertex's targets by transitions without a label yet.
    next: Vec<u128>,
    /// Vertices inside a body: an entry there would come to lie above it.
    frozen: u128,
}

enum Step {
    /// The subchart after it is a loop chart.
    Loop,
    /// It would be one, but has no endless path.
    Ends,
    Neither,
}

impl<'a> Search<'a> {
    fn new(chart: &'a Chart) -> Search<'a> {
        let mut search = Search {
            chart,
            labels: vec![0; chart.transitions.len()],
            next: vec![0; chart.vertices],
            frozen: 1,
        };
        for v in 0..chart.vertices {
            search.refresh(v);
        }
        search
    }

    fn refresh(&mut self, v: usize) {
        let unlabelled = self
            .chart
            .leaving(v)
            .filter(|&index| self.labels[index] == 0);
        self.next[v] = unlabelled.fold(0, |all, index| all | 1 << self.chart.transitions[index].to);
    }

    fn run(mut self, rng: &mut Rng) -> Option<Vec<u8>> {
        let all = u128::MAX >> (128 - self.chart.vertices);
        let splits = rng.pick(&[0, 0, 30, 100]);
        let gaps = rng.pick(&[0, 0, 0, 2, 9]);
        while self.has_cycle(all) {
            let mut order: Vec<usize> = (1..self.chart.vertices).collect();
            rng.shuffle(&mut order);
            let found = order
                .into_iter()
                .any(|v| self.take_out(rng, v, splits, gaps));
            if !found {
                return None;
            }
        }
        Some(self.labels)
    }

    /// Labels loops at v, where there are any.
    fn take_out(&mut self, rng: &mut Rng, v: usize, splits: usize, gaps: usize) -> bool {
        if self.frozen >> v & 1 != 0 {
            return false;
        }
        let mut entries = Vec::new();
        let mut ending = Vec::new();
        for index in self
            .chart
            .leaving(v)
            .filter(|&index| self.labels[index] == 0)
        {
            match self.step(v, self.chart.transitions[index].to) {
                Step::Loop => entries.push(index),
                Step::Ends => ending.push(index),
                Step::Neither => {}
            }
        }
        if entries.is_empty() {
            return false;
        }
        rng.shuffle(&mut entries);
        if rng.percent(20) {
            entries.truncate(rng.between(1, entries.len()));
        }
        let mut groups: Vec<Vec<usize>> = Vec::new();
        for index in entries {
            if groups.is_empty() || rng.percent(splits) {
                groups.push(vec![index]);
            } else {
                let group = rng.below(groups.len());
                groups[group].push(index);
            }
        }
        // A step that leads to deadlock only may join a loop.
        for index in ending {
            if rng.percent(25) {
                let group = rng.below(groups.len());
                groups[group].push(index);
            }
        }
        let mut body = 0;
        for &index in groups.iter().flatten() {
            body |= self.after(v, self.chart.transitions[index].to);
        }
        body &= !(1 << v);
        let inside = (0..self.labels.len())
            .filter(|&index| body >> self.chart.transitions[index].from & 1 != 0)
            .map(|index| self.labels[index])
            .max()
            .unwrap_or(0);
        let mut level = inside as usize;
        for group in groups {
            level = (level + 1 + rng.between(0, gaps)).min(255);
            for index in group {
                self.labels[index] = level as u8;
            }
        }
        self.frozen |= body;
        self.refresh(v);
        true
    }

    /// What a step from v to w and then all standing steps reach, stopping at v.
    fn after(&self, v: usize, w: usize) -> u128 {
        let mut seen: u128 = 1 << w;
        let mut todo = seen & !(1 << v);
        while todo != 0 {
            let at = todo.trailing_zeros() as usize;
            let new = self.next[at] & !seen;
            seen |= new;
            todo = (todo & (todo - 1)) | (new & !(1 << v));
        }
        seen
    }

    fn step(&self, v: usize, w: usize) -> Step {
        let after = self.after(v, w);
        if after & 1 != 0 || self.has_cycle(after & !(1 << v)) {
            Step::Neither
        } else if after >> v & 1 != 0 {
            Step::Loop
        } else {
            Step::Ends
        }
    }

    fn has_cycle(&self, within: u128) -> bool {
        let mut left = within;
        loop {
            let mut keep = left;
            let mut todo = left;
            while todo != 0 {
                let at = todo.trailing_zeros() as usize;
                todo &= todo - 1;
                if self.next[at] & keep == 0 {
                    keep &= !(1 << at);
                }
            }
            if keep == left {
                return left != 0;
            }
            left = keep;
        }
    }
}
