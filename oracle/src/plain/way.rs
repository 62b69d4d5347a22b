//! The shortest way to the end, searched for among the sets that lists of
//! events lead to.
use super::chart::Chart;
use super::follower::{members, targets, State};
use crate::Answer;
use std::collections::{BTreeSet, VecDeque};

/// Writes the shortest list of events after which the end is in the set, among
/// equals the one lowest by its first differing action, to the beginning of
/// lent bytes. A spoilt state reaches nothing, the end in its own set neither.
/// Refusals 20, 21, 53, 55, 54; none changes a byte.
pub fn shortest_way(chart: &[u8], state: &[u8], out: &mut [u8]) -> Answer {
    match way(chart, state) {
        Err(refusal) => refusal,
        Ok(events) if events.len() > out.len() => Answer::new(54, events.len() as u64, 0, 0),
        Ok(events) => {
            out[..events.len()].copy_from_slice(&events);
            Answer::fine(events.len() as u64, 0, 0)
        }
    }
}

/// Each set is looked at once, with the first list that leads to it: shorter
/// lists come first, and lower ones among equals.
fn way(chart: &[u8], state: &[u8]) -> Result<Vec<u8>, Answer> {
    let chart = Chart::read(chart)?;
    // A state of another length counts as one without members.
    let state = State::read(state).unwrap_or(State::EMPTY);
    let (first, spoilt) = members(&chart, state)?;
    if spoilt {
        return Err(NO_WAY);
    }
    let mut found = BTreeSet::from([first.clone()]);
    let mut lists = VecDeque::from([(first, Vec::new())]);
    while let Some((set, events)) = lists.pop_front() {
        if set.contains(&0) {
            return Ok(events);
        }
        for event in 0..=255 {
            let after = targets(&chart, &set, event);
            // An event that isn't possible spoils the run.
            if !after.is_empty() && found.insert(after.clone()) {
                lists.push_back((after, [&events[..], &[event]].concat()));
            }
        }
    }
    Err(NO_WAY)
}

const NO_WAY: Answer = Answer::new(55, 0, 0, 0);
