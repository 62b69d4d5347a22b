//! The chart; checks 20 and 21.
use super::table::Table;
use super::{refused, Refusal};
use std::ops::Range;

/// From, action, to, 0.
pub(super) type Step = [u8; 4];

/// A well-formed chart body.
pub(super) struct Chart<'a> {
    pub(super) vertices: usize,
    pub(super) start: usize,
    pub(super) transitions: &'a [Step],
    /// Vertex v's transitions are those from `rows[v]` to before `rows[v + 1]`.
    rows: &'a Table<u16>,
}

/// Where it leads to.
#[inline]
fn target(step: &Step) -> usize {
    // Vertices are below 128; saying so again spares the bounds checks.
    (step[2] & 127) as usize
}

impl<'a> Chart<'a> {
    #[inline]
    pub(super) fn read(body: &'a [u8], rows: &'a mut Table<u16>) -> Result<Chart<'a>, Refusal> {
        let Some((&[vertices, start, t0, t1], rest)) = body.split_first_chunk() else {
            return Err(refused(20, 0, 0, 0));
        };
        let count = u16::from_le_bytes([t0, t1]) as usize;
        let in_range =
            (2..=128).contains(&vertices) && start >= 1 && start < vertices && count <= 8192;
        if !in_range || rest.len() != 4 * count {
            return Err(refused(20, 0, 0, 0));
        }
        let transitions = rest.as_chunks().0;
        let in_order = in_order(transitions, vertices);
        if !find_rows(&transitions[..in_order], vertices, rows) {
            return Err(without_action(transitions));
        }
        if in_order < count {
            return Err(refused(21, in_order, 0, 0));
        }
        Ok(Chart {
            vertices: vertices as usize,
            start: start as usize,
            transitions,
            rows,
        })
    }

    pub(super) fn count(&self) -> usize {
        self.transitions.len()
    }

    #[inline]
    pub(super) fn row(&self, vertex: usize) -> Range<usize> {
        let vertex = vertex as u8;
        self.rows.get(vertex) as usize..self.rows.get(vertex + 1) as usize
    }

    /// The bytes of the transitions that leave a vertex.
    #[inline]
    pub(super) fn steps(&self, vertex: usize) -> &'a [Step] {
        &self.transitions[self.row(vertex)]
    }

    #[inline]
    pub(super) fn targets(&self, vertex: usize) -> impl Iterator<Item = usize> + Clone + 'a {
        self.steps(vertex).iter().map(target)
    }
}

/// So many transitions are tested together.
const BLOCK: usize = 32;

/// How many transitions come before the first that is malformed by something
/// else than its action.
#[inline]
fn in_order(transitions: &[Step], vertices: u8) -> usize {
    let mut count = 0;
    if transitions.len() >= BLOCK {
        count = blocks_in_order(transitions, vertices);
    }
    // Below from 1 there is no room for transitions of the end.
    let before = transitions[..count].last().unwrap_or(&[0, 255, 255, 255]);
    let mut before = u32::from_be_bytes(*before);
    for &step in &transitions[count..] {
        let key = u32::from_be_bytes(step);
        if key <= before || step[0] >= vertices || step[2] >= vertices || step[3] != 0 {
            break;
        }
        before = key;
        count += 1;
    }
    count
}

/// The same by blocks, the last of which may be cut short. Without a jump at
/// each transition several are tested by one instruction.
fn blocks_in_order(transitions: &[Step], vertices: u8) -> usize {
    // In such a number the last byte comes first, then to: what is wrong with
    // them makes it V x 65,536 or above, or below 0.
    let past = i32::from_le_bytes([0, 0, vertices, 0]);
    // From, action and to in their order, after that of the transition before.
    let mut keys = [0xFFFF; BLOCK + 1];
    let (blocks, _) = transitions.as_chunks::<BLOCK>();
    for (place, block) in blocks.iter().enumerate() {
        let mut below_0 = -1;
        keys[0] = keys[BLOCK];
        for (key, step) in keys[1..].iter_mut().zip(block) {
            let number = i32::from_le_bytes(*step);
            below_0 &= number.wrapping_sub(past) & !number;
            *key = (number & 255) << 16 | number & 0xFF00 | number >> 16;
        }
        for i in 0..BLOCK {
            below_0 &= keys[i].wrapping_sub(keys[i + 1]);
        }
        if below_0 >= 0 || block[BLOCK - 1][0] >= vertices {
            return BLOCK * place;
        }
    }
    BLOCK * blocks.len()
}

/// Where the rows of transitions in order begin; whether all of these have
/// actions, of which a row's first is the lowest.
#[inline]
fn find_rows(transitions: &[Step], vertices: u8, rows: &mut Table<u16>) -> bool {
    rows.set(0, 0);
    let mut at = 0;
    for v in 1..vertices {
        rows.set(v, at as u16);
        let leaves_v = |at: usize| transitions.get(at).is_some_and(|step| step[0] == v);
        if !leaves_v(at) {
            continue;
        }
        if transitions[at][1] == 0 {
            return false;
        }
        while leaves_v(at + 8) {
            at += 8;
        }
        at += 1;
        while leaves_v(at) {
            at += 1;
        }
    }
    rows.set(vertices, at as u16);
    true
}

#[cold]
fn without_action(transitions: &[Step]) -> Refusal {
    let index = transitions.iter().position(|step| step[1] == 0);
    refused(21, index.unwrap_or(0), 0, 0)
}

/// The part of a chart body that holds the transitions leaving a vertex.
pub fn transitions_leaving(body: &[u8], vertex: u64) -> &[u8] {
    match Chart::read(body, &mut Table::of(0)) {
        Ok(chart) if vertex < chart.vertices as u64 => {
            let row = chart.row(vertex as usize);
            &body[4 + 4 * row.start..4 + 4 * row.end]
        }
        _ => &[],
    }
}
