//! The expression and its chart; checks 10 to 12.
use super::table::Table;
use super::{refused, Refusal};
use crate::Answer;

pub(super) const MOST_NODES: usize = 127;

pub(super) const DEADLOCK: u8 = 0;
pub(super) const ACTION: u8 = 1;
pub(super) const SUM: u8 = 2;
pub(super) const PRODUCT: u8 = 3;
pub(super) const STAR: u8 = 4;

/// A well-formed expression body; vertex k + 1 stands for node k.
pub(super) struct Expression<'a> {
    pub(super) nodes: &'a [[u8; 4]],
    /// Where the climb from each node goes.
    pub(super) onward: &'a Table<u8>,
}

/// No vertex: nothing has this node as an operand.
const UNUSED: u8 = 255;

impl<'a> Expression<'a> {
    #[inline]
    pub(super) fn read(
        body: &'a [u8],
        onward: &'a mut Table<u8>,
    ) -> Result<Expression<'a>, Refusal> {
        let (nodes, rest) = body.as_chunks();
        if nodes.is_empty() || nodes.len() > MOST_NODES || !rest.is_empty() {
            return Err(refused(10, body.len(), 0, 0));
        }
        if !is_tree(nodes, onward) {
            return Err(malformed(nodes));
        }
        Ok(Expression { nodes, onward })
    }
}

/// Whether nothing is refused; where the climbs go, from the root down.
fn is_tree(nodes: &[[u8; 4]], onward: &mut Table<u8>) -> bool {
    let root = nodes.len() - 1;
    onward.fill(root, UNUSED);
    onward.set(root as u8, 0);
    let mut operands = 0;
    for (k, &node) in nodes.iter().enumerate().rev() {
        let k = k as u8;
        let [kind, action, left, right] = node;
        let after = onward.get(k);
        let fine = match kind {
            DEADLOCK => u32::from_le_bytes(node) == 0,
            ACTION => action != 0 && left | right == 0,
            SUM..=STAR => action == 0 && left < k && right < k,
            _ => false,
        };
        if !fine || after == UNUSED {
            return false;
        }
        if kind >= SUM {
            operands += 2;
            onward.set(right, after);
            let of_left = match kind {
                SUM => after,
                PRODUCT => right + 1,
                _ => k + 1,
            };
            onward.set(left, of_left);
        }
    }
    // As many operands as nodes below the root, each of which is one.
    operands == root
}

#[cold]
fn malformed(nodes: &[[u8; 4]]) -> Refusal {
    let mut uses = [0u8; MOST_NODES];
    for (k, &[kind, action, left, right]) in nodes.iter().enumerate() {
        let (l, r) = (left as usize, right as usize);
        let fine = match kind {
            DEADLOCK => action | left | right == 0,
            ACTION => action != 0 && left | right == 0,
            SUM..=STAR => action == 0 && l < k && r < k,
            _ => false,
        };
        if !fine {
            return refused(11, k, 0, 0);
        }
        if kind >= SUM {
            uses[l] += 1;
            uses[r] += 1;
        }
    }
    let below_root = &uses[..nodes.len() - 1];
    let lowest = below_root.iter().position(|&n| n != 1).unwrap_or(0);
    refused(12, lowest, uses[lowest] as usize, 0)
}

/// The expression's chart in short. A tree of at most 127 nodes has at most 64
/// leaves, so its different (action, target) steps fit a `u64`; they are
/// numbered in ascending order, and a vertex's transitions are a set of them.
pub(super) struct FirstSteps {
    pub(super) action: [u8; 64],
    pub(super) target: [u8; 64],
    /// By vertex.
    pub(super) first: [u64; MOST_NODES + 1],
}

impl FirstSteps {
    pub(super) fn of(expression: &Expression) -> FirstSteps {
        // Action, target and node of each.
        let mut leaves = [[0; 3]; 64];
        let mut count = 0;
        for (k, &[kind, action, _, _]) in (0..).zip(expression.nodes) {
            if kind == ACTION {
                leaves[count] = [action, expression.onward.get(k), k];
                count += 1;
            }
        }
        let leaves = &mut leaves[..count];
        leaves.sort_unstable();
        let mut steps = FirstSteps {
            action: [0; 64],
            target: [0; 64],
            first: [0; MOST_NODES + 1],
        };
        let alike = |a: &[u8; 3], b: &[u8; 3]| a[..2] == b[..2];
        for (number, same) in leaves.chunk_by(alike).enumerate() {
            [steps.action[number], steps.target[number], _] = same[0];
            for &[_, _, k] in same {
                steps.first[k as usize + 1] = 1 << number;
            }
        }
        for (k, &[kind, _, left, right]) in expression.nodes.iter().enumerate() {
            let (l, r) = (left as usize + 1, right as usize + 1);
            match kind {
                SUM | STAR => steps.first[k + 1] = steps.first[l] | steps.first[r],
                PRODUCT => steps.first[k + 1] = steps.first[l],
                _ => {}
            }
        }
        steps
    }

    /// The index, in the expression's chart, of a vertex's first transition.
    pub(super) fn offset(&self, vertex: usize) -> usize {
        let before = self.first[..vertex].iter();
        before.map(|set| set.count_ones() as usize).sum()
    }
}

/// Writes the chart of an expression body into lent bytes.
pub fn write_chart(body: &[u8], out: &mut [u8]) -> Answer {
    let mut onward = Table::of(0);
    let expression = match Expression::read(body, &mut onward) {
        Ok(expression) => expression,
        Err(refusal) => return refusal,
    };
    let nodes = expression.nodes.len();
    let steps = FirstSteps::of(&expression);
    let count = steps.offset(nodes + 1);
    let length = 4 + 4 * count;
    if out.len() < length {
        return refused(54, length, 0, 0);
    }
    let [low, high] = (count as u16).to_le_bytes();
    out[..4].copy_from_slice(&[nodes as u8 + 1, nodes as u8, low, high]);
    let mut rows = out[4..length].chunks_exact_mut(4);
    for vertex in 1..=nodes {
        let mut set = steps.first[vertex];
        for row in rows.by_ref().take(set.count_ones() as usize) {
            let step = set.trailing_zeros() as usize;
            set &= set - 1;
            row.copy_from_slice(&[vertex as u8, steps.action[step], steps.target[step], 0]);
        }
    }
    Answer::fine(length as u64, 0, 0)
}
