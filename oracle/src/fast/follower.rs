//! The follower.
use super::chart::Chart;
use super::sets::{below, bit, lowest, Vertices, MOST_VERTICES};
use super::table::Table;
use super::{refused, Refusal};
use crate::{Answer, NOT_POSSIBLE, SPOILT, TAKEN};

/// The set's bytes, and the mark.
type State = [u8; 17];

fn state_of(set: Vertices, mark: u8) -> State {
    let mut state = [mark; 17];
    state[..16].copy_from_slice(&set.to_le_bytes());
    state
}

/// The set of a state, and whether it is spoilt; 53, also for another length.
#[inline]
pub(super) fn set_of(state: &[u8], vertices: usize) -> Result<(Vertices, bool), Refusal> {
    let Some((set, &[mark @ 0..=1])) = state.split_first_chunk() else {
        return Err(refused(53, 0, 0, 0));
    };
    let set = Vertices::from_le_bytes(*set);
    if set == 0 || set & !below(vertices) != 0 {
        return Err(refused(53, 0, 0, 0));
    }
    Ok((set, mark == 1))
}

/// The start alone; a refusal hands back the empty set, unspoilt.
pub fn restart(chart: &[u8]) -> (Answer, State) {
    match Chart::read(chart, &mut Table::of(0)) {
        Ok(chart) => {
            let set = bit(chart.start);
            (said(&chart, TAKEN, set), state_of(set, 0))
        }
        Err(refusal) => (refusal, [0; 17]),
    }
}

/// An event; a refusal hands the state back as it came.
pub fn event(chart: &[u8], mut state: State, event: u8) -> (Answer, State) {
    let answer = event_lent(chart, &mut state, event);
    (answer, state)
}

/// An event on a lent state; a refusal leaves it.
pub fn event_lent(chart: &[u8], state: &mut [u8], action: u8) -> Answer {
    followed(chart, state, action).unwrap_or_else(|refusal| refusal)
}

fn followed(chart: &[u8], state: &mut [u8], action: u8) -> Result<Answer, Refusal> {
    let mut rows = Table::of(0);
    let chart = Chart::read(chart, &mut rows)?;
    let (set, spoilt) = set_of(state, chart.vertices)?;
    if spoilt {
        return Ok(Answer::fine(SPOILT, 0, 0));
    }
    let targets = targets(&chart, set, action);
    if targets == 0 {
        state[16] = 1;
        return Ok(said(&chart, NOT_POSSIBLE, set));
    }
    state.copy_from_slice(&state_of(targets, 0));
    Ok(said(&chart, TAKEN, targets))
}

/// All that the members of a set lead to by an action.
fn targets(chart: &Chart, mut set: Vertices, action: u8) -> Vertices {
    // One byte a vertex, which is set without asking what it was.
    let mut reached = [0u8; MOST_VERTICES];
    while set != 0 {
        // A row is in order of its actions.
        let row = chart.steps(lowest(set));
        set &= set - 1;
        let row = &row[row.partition_point(|t| t[1] < action)..];
        let row = &row[..row.partition_point(|t| t[1] == action)];
        for t in row {
            reached[(t[2] & 127) as usize] = 1;
        }
    }
    let words = reached.chunks_exact(8).enumerate();
    words.fold(0, |all, (i, bytes)| {
        let word = u64::from_le_bytes(bytes.try_into().expect("8 bytes"));
        // Brings the eight bytes' low bits together.
        let bits = word.wrapping_mul(0x0102_0408_1020_4080) >> 56;
        all | (bits as Vertices) << (8 * i)
    })
}

fn said(chart: &Chart, word: u64, set: Vertices) -> Answer {
    let mut offered = [0u8; 256];
    let mut members = set;
    while members != 0 {
        for t in chart.steps(lowest(members)) {
            offered[t[1] as usize] = 1;
        }
        members &= members - 1;
    }
    let count = offered.iter().map(|&action| action as u64).sum();
    Answer::fine(word, (set & 1) as u64, count)
}

/// Restart on a lent state; a refusal leaves it.
pub fn restart_lent(chart: &[u8], state: &mut [u8]) -> Answer {
    let (answer, after) = restart(chart);
    match <&mut State>::try_from(state) {
        _ if answer.is_refusal() => answer,
        Ok(state) => {
            *state = after;
            answer
        }
        Err(_) => refused(53, 0, 0, 0),
    }
}
