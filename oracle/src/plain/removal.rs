//! Taking out a loop, and the plain set of loops that a list of removals over
//! an accepted file is held against.
use super::chart::Chart;
use super::labelling::{loop_body, loops, read_labels, Loop};
use super::loop_chart::Subchart;
use crate::Answer;
use std::collections::BTreeSet;

/// Takes out the loop (vertex, level): its standing entries become 0. Refusals
/// 20, 21, 30, 50, 51, 52; none changes a standing byte.
pub fn remove(
    chart: &[u8],
    labelling: &[u8],
    vertex: u64,
    level: u64,
    standing: &mut [u8],
) -> Answer {
    let found = Standing::read(chart, labelling, standing)
        .and_then(|on| on.standing_loop(vertex, level))
        .map(|found| found.entries);
    cleared(standing, found)
}

/// Where entries are found, their standing bytes become 0.
pub(super) fn cleared(standing: &mut [u8], entries: Result<Vec<usize>, Answer>) -> Answer {
    match entries {
        Ok(entries) => {
            for index in entries {
                standing[index] = 0;
            }
            Answer::fine(0, 0, 0)
        }
        Err(refusal) => refusal,
    }
}

/// A labelled chart with its standing bytes.
pub(super) struct Standing<'a> {
    chart: Chart,
    labels: Vec<u8>,
    standing: &'a [u8],
}

/// The standing entries of a loop, and the loop chart that they induce.
pub(super) struct StandingLoop {
    pub entries: Vec<usize>,
    pub chart: Subchart,
}

impl Standing<'_> {
    /// Refusals 20, 21, 30, 50.
    pub fn read<'a>(
        chart: &[u8],
        labelling: &[u8],
        standing: &'a [u8],
    ) -> Result<Standing<'a>, Answer> {
        let chart = Chart::read(chart)?;
        let labels = read_labels(labelling, &chart)?;
        if standing.len() != chart.transitions.len() || standing.iter().any(|byte| *byte > 1) {
            return Err(Answer::new(50, 0, 0, 0));
        }
        Ok(Standing {
            chart,
            labels,
            standing,
        })
    }

    /// Refusals 51, 52.
    pub fn standing_loop(&self, vertex: u64, level: u64) -> Result<StandingLoop, Answer> {
        // Level 0 marks branches and names no loop.
        let entries: Vec<usize> = (0..self.labels.len())
            .filter(|&index| {
                level != 0
                    && self.chart.transitions[index].from as u64 == vertex
                    && self.labels[index] as u64 == level
                    && self.standing[index] == 1
            })
            .collect();
        if entries.is_empty() {
            return Err(Answer::new(51, vertex, level, 0));
        }
        let chart = Subchart::generated(vertex as usize, |at| {
            let steps: Vec<usize> = if at as u64 == vertex {
                entries.clone()
            } else {
                self.chart
                    .leaving(at)
                    .filter(|index| self.standing[*index] == 1)
                    .collect()
            };
            steps
                .into_iter()
                .map(|index| self.chart.transitions[index].to)
                .collect()
        });
        match chart.first_broken() {
            Some(broken) => Err(Answer::new(52, vertex, level, broken)),
            None => Ok(StandingLoop { entries, chart }),
        }
    }
}

/// The loops of an accepted file that are not yet taken out.
#[derive(Clone, Debug)]
pub struct LoopSet {
    chart: Chart,
    labels: Vec<u8>,
    /// With each loop, the vertices inside its body, its own start aside.
    bodies: Vec<(Loop, BTreeSet<usize>)>,
}

impl LoopSet {
    /// At first all loops.
    pub fn all(chart: &Chart, labels: &[u8]) -> LoopSet {
        let bodies = loops(chart, labels)
            .into_iter()
            .map(|one| {
                let mut inside = loop_body(chart, labels, one);
                inside.remove(&one.0);
                (one, inside)
            })
            .collect();
        LoopSet {
            chart: chart.clone(),
            labels: labels.to_vec(),
            bodies,
        }
    }

    pub fn loops(&self) -> Vec<Loop> {
        self.bodies.iter().map(|(one, _)| *one).collect()
    }

    /// The loops with no loop of the set inside their body.
    pub fn free(&self) -> Vec<Loop> {
        let starts: BTreeSet<usize> = self.bodies.iter().map(|((v, _), _)| *v).collect();
        self.bodies
            .iter()
            .filter(|(_, inside)| inside.is_disjoint(&starts))
            .map(|(one, _)| *one)
            .collect()
    }

    /// A call's pair is fed to the set: 51, 52, or it leaves the set.
    pub fn take(&mut self, vertex: u64, level: u64) -> Answer {
        let found = self
            .bodies
            .iter()
            .position(|((v, l), _)| *v as u64 == vertex && *l as u64 == level);
        let Some(at) = found else {
            return Answer::new(51, vertex, level, 0);
        };
        let inside = &self.bodies[at].1;
        if self.bodies.iter().any(|((v, _), _)| inside.contains(v)) {
            return Answer::new(52, vertex, level, 2);
        }
        self.bodies.remove(at);
        Answer::fine(0, 0, 0)
    }

    /// The standing bytes: 1 for a branch, or an entry whose loop is in the set.
    pub fn standing(&self) -> Vec<u8> {
        let left: BTreeSet<Loop> = self.loops().into_iter().collect();
        let transitions = self.chart.transitions.iter().zip(&self.labels);
        transitions
            .map(|(t, &label)| (label == 0 || left.contains(&(t.from, label))) as u8)
            .collect()
    }
}
