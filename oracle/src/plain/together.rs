//! Taking out several loops together: 000's multi-step elimination, of which
//! only the transitions go.
use super::removal::{cleared, Standing, StandingLoop};
use crate::Answer;
use std::collections::BTreeSet;

const MOST_LOOPS: usize = 64;

/// Takes out the loops of a list, two bytes each, v then level: the standing
/// entries of all of them become 0. Refusals 20, 21, 30, 50, 56, 51, 52, 57;
/// none changes a standing byte.
pub fn remove_together(
    chart: &[u8],
    labelling: &[u8],
    loops: &[u8],
    standing: &mut [u8],
) -> Answer {
    let entries = entries_of_all(chart, labelling, loops, standing);
    cleared(standing, entries)
}

fn entries_of_all(
    chart: &[u8],
    labelling: &[u8],
    loops: &[u8],
    standing: &[u8],
) -> Result<Vec<usize>, Answer> {
    let on = Standing::read(chart, labelling, standing)?;
    let pairs = read_pairs(loops)?;
    let one = |pair: &[u8]| on.standing_loop(pair[0] as u64, pair[1] as u64);
    let loops: Vec<StandingLoop> = pairs.into_iter().map(one).collect::<Result<_, _>>()?;
    let is_inside = |one: &StandingLoop| loops.iter().any(|other| other.has_inside(one));
    match loops.iter().position(is_inside) {
        Some(place) => Err(Answer::new(57, place as u64, 0, 0)),
        None => Ok(loops.into_iter().flat_map(|one| one.entries).collect()),
    }
}

/// Refusal 56, which looks at nothing but these bytes.
fn read_pairs(loops: &[u8]) -> Result<Vec<&[u8]>, Answer> {
    let pairs: Vec<&[u8]> = loops.chunks(2).collect();
    let different: BTreeSet<&[u8]> = pairs.iter().copied().collect();
    if loops.len() % 2 != 0 || pairs.len() > MOST_LOOPS || different.len() != pairs.len() {
        return Err(Answer::new(56, 0, 0, 0));
    }
    Ok(pairs)
}

impl StandingLoop {
    /// Whether the other's start is in this one's body, which leaves out its
    /// own start.
    fn has_inside(&self, other: &StandingLoop) -> bool {
        let start = other.chart.start;
        start != self.chart.start && self.chart.successors.contains_key(&start)
    }
}
