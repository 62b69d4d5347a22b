//! Charts, as the record of kind 2 holds them.
use crate::Answer;
use std::ops::Range;

/// Ordered as a chart body lists them: by from, then action, then to.
#[derive(Clone, Copy, PartialEq, Eq, PartialOrd, Ord, Debug)]
pub struct Transition {
    pub from: usize,
    pub action: u8,
    pub to: usize,
}

/// Vertices are 0 to `vertices` - 1, 0 is the end. Transitions ascend strictly.
#[derive(Clone, PartialEq, Eq, Debug)]
pub struct Chart {
    pub vertices: usize,
    pub start: usize,
    pub transitions: Vec<Transition>,
}

impl Chart {
    /// Refusals 20 and 21.
    pub fn read(body: &[u8]) -> Result<Chart, Answer> {
        let refused = Err(Answer::new(20, 0, 0, 0));
        if body.len() < 4 {
            return refused;
        }
        let vertices = body[0] as usize;
        let start = body[1] as usize;
        let count = u16::from_le_bytes([body[2], body[3]]) as usize;
        if !(2..=128).contains(&vertices) || start < 1 || start >= vertices || count > 8192 {
            return refused;
        }
        if body.len() != 4 + 4 * count {
            return refused;
        }
        let mut transitions: Vec<Transition> = Vec::new();
        for (index, bytes) in body[4..].chunks(4).enumerate() {
            let transition = Transition {
                from: bytes[0] as usize,
                action: bytes[1],
                to: bytes[2] as usize,
            };
            let well_formed = transition.from != 0
                && transition.from < vertices
                && transition.action != 0
                && transition.to < vertices
                && bytes[3] == 0;
            // Of two unordered transitions the later one is reported.
            let ordered = transitions.last().is_none_or(|before| *before < transition);
            if !well_formed || !ordered {
                return Err(Answer::new(21, index as u64, 0, 0));
            }
            transitions.push(transition);
        }
        Ok(Chart {
            vertices,
            start,
            transitions,
        })
    }

    /// The chart body.
    pub fn bytes(&self) -> Vec<u8> {
        let mut bytes = vec![self.vertices as u8, self.start as u8];
        bytes.extend((self.transitions.len() as u16).to_le_bytes());
        for t in &self.transitions {
            bytes.extend([t.from as u8, t.action, t.to as u8, 0]);
        }
        bytes
    }

    /// The indices of the transitions leaving a vertex.
    pub fn leaving(&self, vertex: usize) -> Range<usize> {
        let first = self.transitions.partition_point(|t| t.from < vertex);
        let past = self.transitions.partition_point(|t| t.from <= vertex);
        first..past
    }

    /// The vertices reached from `from` in any number of steps, by the
    /// transitions whose index `allowed` lets pass.
    pub fn reached(&self, from: usize, allowed: impl Fn(usize) -> bool) -> Vec<bool> {
        let mut reached = vec![false; self.vertices];
        reached[from] = true;
        let mut to_visit = vec![from];
        while let Some(vertex) = to_visit.pop() {
            for index in self.leaving(vertex) {
                let to = self.transitions[index].to;
                if allowed(index) && !reached[to] {
                    reached[to] = true;
                    to_visit.push(to);
                }
            }
        }
        reached
    }
}

/// The part of a chart body that holds the transitions leaving a vertex. Empty
/// for a vertex with none, a number of V or above, or a body refused 20 or 21.
pub fn transitions_leaving(body: &[u8], vertex: u64) -> &[u8] {
    let Ok(chart) = Chart::read(body) else {
        return &[];
    };
    if vertex >= chart.vertices as u64 {
        return &[];
    }
    let range = chart.leaving(vertex as usize);
    &body[4 + 4 * range.start..4 + 4 * range.end]
}
