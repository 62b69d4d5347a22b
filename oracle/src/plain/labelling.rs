//! Labellings: checks 30 to 35, and 001's Definition 3.3 beside them.
use super::chart::Chart;
use super::loop_chart::{endless_vertices, Subchart};
use crate::Answer;
use std::collections::{BTreeMap, BTreeSet};

/// A loop: its vertex and its level.
pub type Loop = (usize, u8);

/// One label a transition; refusal 30.
pub fn read_labels(body: &[u8], chart: &Chart) -> Result<Vec<u8>, Answer> {
    if body.len() != chart.transitions.len() {
        return Err(Answer::new(30, body.len() as u64, 0, 0));
    }
    Ok(body.to_vec())
}

/// All loops, by vertex and then level.
pub fn loops(chart: &Chart, labels: &[u8]) -> BTreeSet<Loop> {
    chart
        .transitions
        .iter()
        .zip(labels)
        .filter(|(_, level)| **level != 0)
        .map(|(t, level)| (t.from, *level))
        .collect()
}

/// The loop's chart: its vertex has just the loop's entries, every other
/// vertex its branch transitions.
fn loop_chart(chart: &Chart, labels: &[u8], (v, level): Loop) -> Subchart {
    Subchart::generated(v, |vertex| {
        let wanted = if vertex == v { level } else { 0 };
        chart
            .leaving(vertex)
            .filter(|index| labels[*index] == wanted)
            .map(|index| chart.transitions[index].to)
            .collect()
    })
}

/// What the loop's entries and then branch transitions reach, stopping at its
/// vertex. That vertex is in it only where there is a way back.
pub fn loop_body(chart: &Chart, labels: &[u8], (v, level): Loop) -> BTreeSet<usize> {
    let mut body = BTreeSet::new();
    let mut to_follow: Vec<usize> = chart
        .leaving(v)
        .filter(|index| labels[*index] == level)
        .collect();
    while let Some(index) = to_follow.pop() {
        let to = chart.transitions[index].to;
        if body.insert(to) && to != v {
            to_follow.extend(chart.leaving(to).filter(|index| labels[*index] == 0));
        }
    }
    body
}

/// Refusals 31 to 35, as document 01 states them.
pub fn check_labelling(chart: &Chart, labels: &[u8]) -> Result<(), Answer> {
    let reached = chart.reached(chart.start, |_| true);
    for vertex in 1..chart.vertices {
        if !reached[vertex] {
            return Err(Answer::new(31, vertex as u64, 0, 0));
        }
    }
    for vertex in 1..chart.vertices {
        if on_branch_cycle(chart, labels, vertex) {
            return Err(Answer::new(32, vertex as u64, 0, 0));
        }
    }
    for (v, level) in loops(chart, labels) {
        let body = loop_body(chart, labels, (v, level));
        let (p, q) = (v as u64, level as u64);
        if !body.contains(&v) {
            return Err(Answer::new(33, p, q, 0));
        }
        if body.contains(&0) {
            return Err(Answer::new(34, p, q, 0));
        }
        let too_high = |vertex: usize| {
            chart
                .leaving(vertex)
                .any(|index| labels[index] != 0 && labels[index] >= level)
        };
        if let Some(r) = body.into_iter().find(|&r| r != v && too_high(r)) {
            return Err(Answer::new(35, p, q, r as u64));
        }
    }
    Ok(())
}

fn on_branch_cycle(chart: &Chart, labels: &[u8], vertex: usize) -> bool {
    let is_branch = |index: usize| labels[index] == 0;
    let reached = chart.reached(vertex, is_branch);
    (0..chart.transitions.len()).any(|index| {
        let t = chart.transitions[index];
        is_branch(index) && t.to == vertex && reached[t.from]
    })
}

/// 001's Definition 3.3 on a connected chart, by the letter: W1, W2(a), W2(b),
/// and every vertex but the end reached from the start.
pub fn is_layered_loop_witness(chart: &Chart, labels: &[u8]) -> bool {
    let reached = chart.reached(chart.start, |_| true);
    let connected = (1..chart.vertices).all(|vertex| reached[vertex]);

    let branches: BTreeMap<usize, BTreeSet<usize>> = (0..chart.vertices)
        .map(|vertex| {
            let next = chart.leaving(vertex).filter(|index| labels[*index] == 0);
            (
                vertex,
                next.map(|index| chart.transitions[index].to).collect(),
            )
        })
        .collect();
    let w1 = !endless_vertices(&branches).contains(&chart.start);

    let w2 = loops(chart, labels).into_iter().all(|(v, level)| {
        let subchart = loop_chart(chart, labels, (v, level));
        let a = subchart.first_broken().is_none();
        let b = subchart
            .successors
            .keys()
            .filter(|vertex| **vertex != v)
            .all(|vertex| chart.leaving(*vertex).all(|index| labels[index] < level));
        a && b
    });
    connected && w1 && w2
}
