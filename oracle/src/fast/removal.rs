//! Taking out a loop.
use super::chart::Chart;
use super::sets::{bit, lowest, Vertices, MOST_VERTICES};
use super::table::Table;
use super::{refused, Refusal};
use crate::Answer;
use std::ops::Range;

/// Takes out the loop (vertex, level).
pub fn remove(chart: &[u8], labels: &[u8], vertex: u64, level: u64, standing: &mut [u8]) -> Answer {
    match removable(chart, labels, vertex, level, standing) {
        Ok(row) => {
            for (byte, &label) in standing[row.clone()].iter_mut().zip(&labels[row]) {
                if label as u64 == level {
                    *byte = 0;
                }
            }
            Answer::fine(0, 0, 0)
        }
        Err(refusal) => refusal,
    }
}

/// The transitions among which the loop's entries are.
fn removable(
    chart: &[u8],
    labels: &[u8],
    vertex: u64,
    level: u64,
    standing: &[u8],
) -> Result<Range<usize>, Refusal> {
    let mut rows = Table::of(0);
    let chart = standing_chart(chart, &mut rows, labels, standing)?;
    let no_entry = Answer::new(51, vertex, level, 0);
    if vertex >= chart.vertices as u64 || level == 0 || level > 255 {
        return Err(no_entry);
    }
    let v = vertex as usize;
    let row = chart.row(v);
    let stands = &standing[row.clone()];
    let labelled = chart.targets(v).zip(&labels[row.clone()]).zip(stands);
    let entries = labelled
        .filter(|((_, &label), &stands)| label as u64 == level && stands == 1)
        .fold(0, |all, ((to, _), _)| all | bit(to));
    if entries == 0 {
        return Err(no_entry);
    }
    match loop_body(v, entries, |u| standing_steps(&chart, standing, u)) {
        Ok(_) => Ok(row),
        Err(broken) => Err(Answer::new(52, vertex, level, broken)),
    }
}

/// The chart of standing bytes; refusals 20, 21, 30, 50.
pub(super) fn standing_chart<'a>(
    chart: &'a [u8],
    rows: &'a mut Table<u16>,
    labels: &[u8],
    standing: &[u8],
) -> Result<Chart<'a>, Refusal> {
    let chart = Chart::read(chart, rows)?;
    if labels.len() != chart.count() {
        return Err(refused(30, labels.len(), 0, 0));
    }
    if standing.len() != chart.count() || standing.iter().fold(0, |all, byte| all | byte) > 1 {
        return Err(refused(50, 0, 0, 0));
    }
    Ok(chart)
}

/// What the standing steps of a vertex lead to.
pub(super) fn standing_steps(chart: &Chart, standing: &[u8], vertex: usize) -> Vertices {
    let steps = chart.targets(vertex).zip(&standing[chart.row(vertex)]);
    steps.fold(0, |all, (to, &stands)| all | (stands as Vertices) << to)
}

/// What a loop's entries and then all steps reach, stopping at its vertex; or
/// the first of L1 to L3 that is broken.
pub(super) fn loop_body(
    v: usize,
    entries: Vertices,
    mut steps: impl FnMut(usize) -> Vertices,
) -> Result<Vertices, u64> {
    match reached(entries, |u| if u == v { 0 } else { steps(u) }) {
        None => Err(2),
        Some(body) if body & bit(v) == 0 => Err(1),
        Some(body) if body & 1 != 0 => Err(3),
        Some(body) => Ok(body),
    }
}

/// What `from` and all that follows it reach, depth first; None where there is
/// a cycle.
fn reached(from: Vertices, mut successors: impl FnMut(usize) -> Vertices) -> Option<Vertices> {
    let (mut seen, mut on_path): (Vertices, Vertices) = (0, 0);
    let mut path = [0u8; MOST_VERTICES];
    // What is still to be followed before each place of the path.
    let mut rest = [0; MOST_VERTICES];
    let mut depth = 0;
    let mut next = from;
    loop {
        next &= !seen;
        if next != 0 {
            let vertex = lowest(next);
            rest[depth] = next;
            path[depth] = vertex as u8;
            depth += 1;
            seen |= bit(vertex);
            on_path |= bit(vertex);
            next = successors(vertex);
            if next & on_path != 0 {
                return None;
            }
        } else if depth == 0 {
            return Some(seen);
        } else {
            depth -= 1;
            on_path &= !bit(path[depth] as usize);
            next = rest[depth];
        }
    }
}
