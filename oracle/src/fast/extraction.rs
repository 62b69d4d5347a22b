//! An expression for a drawn chart.
//!
//! A text is written left part first, so that each node comes after those before
//! it. Of nodes there is one less than twice as many as leaves: a text takes what
//! its own transitions need of the leaves left before anything of it is written.
use super::chart::{Chart, Step};
use super::expression::{ACTION, DEADLOCK, MOST_NODES, PRODUCT, STAR, SUM};
use super::{labelling, refused, with_room, Refusal, Room};
use crate::Answer;

const MOST_LEAVES: usize = MOST_NODES.div_ceil(2);

/// Writes the expression body of the start's text.
pub fn write_expression(chart: &[u8], labels: &[u8], out: &mut [u8]) -> Answer {
    with_room(|room| written(chart, labels, out, room)).unwrap_or_else(|refusal| refusal)
}

fn written(
    chart: &[u8],
    labels: &[u8],
    out: &mut [u8],
    room: &mut Room,
) -> Result<Answer, Refusal> {
    let chart = Chart::read(chart, &mut room.rows)?;
    labelling::labelling(&chart, labels, &mut room.labelling)?;
    let mut table = Nodes {
        chart: &chart,
        labels,
        sides: &room.labelling,
        leaves: MOST_LEAVES,
        nodes: [[0; 4]; MOST_NODES + 1],
        count: 0,
    };
    // All vertices are reached, so each transition is a leaf at least once.
    if chart.count() > MOST_LEAVES || table.text(chart.start as u8, 0).is_none() {
        return Err(refused(58, 0, 0, 0));
    }
    let body = table.nodes[..table.count].as_flattened();
    let Some(lent) = out.get_mut(..body.len()) else {
        return Err(refused(54, body.len(), 0, 0));
    };
    lent.copy_from_slice(body);
    Ok(Answer::fine(body.len() as u64, 0, 0))
}

struct Nodes<'a> {
    chart: &'a Chart<'a>,
    labels: &'a [u8],
    /// What says whether a vertex has entries, and whether it has branches.
    sides: &'a labelling::Room,
    /// How many more there may be.
    leaves: usize,
    nodes: [[u8; 4]; MOST_NODES + 1],
    count: usize,
}

impl Nodes<'_> {
    /// Its number.
    #[inline]
    fn push(&mut self, node: [u8; 4]) -> u8 {
        let number = self.count;
        // As many leaves as there may be have 127 nodes; saying so again spares the
        // bounds checks.
        self.nodes[number & MOST_NODES] = node;
        self.count += 1;
        number as u8
    }

    /// The text of w back to a vertex; None where there are too many leaves.
    fn text(&mut self, w: u8, back: u8) -> Option<u8> {
        let row = self.chart.row(w.into());
        let (entries, branches) = (self.sides.has_entries(w), self.sides.has_branches(w));
        // An empty sum is a leaf too.
        let leaves = row.len() + !entries as usize + !branches as usize;
        self.leaves = self.leaves.checked_sub(leaves)?;
        let (steps, labels) = (&self.chart.transitions[row.clone()], &self.labels[row]);
        let left = if entries {
            self.sum(steps, labels, |label| label != 0, w)?
        } else {
            self.push([DEADLOCK, 0, 0, 0])
        };
        let right = if branches {
            self.sum(steps, labels, |label| label == 0, back)?
        } else {
            self.push([DEADLOCK, 0, 0, 0])
        };
        Some(self.push([STAR, 0, left, right]))
    }

    /// The sum over the transitions with such labels, of which there are some.
    #[inline(always)]
    fn sum(
        &mut self,
        steps: &[Step],
        labels: &[u8],
        such: impl Fn(u8) -> bool,
        back: u8,
    ) -> Option<u8> {
        let mut sum = None;
        for (&[_, action, to, _], &label) in steps.iter().zip(labels) {
            if !such(label) {
                continue;
            }
            let mut item = self.push([ACTION, action, 0, 0]);
            if to != back {
                let text = self.text(to, back)?;
                item = self.push([PRODUCT, 0, item, text]);
            }
            sum = Some(match sum {
                None => item,
                Some(before) => self.push([SUM, 0, before, item]),
            });
        }
        sum
    }
}
