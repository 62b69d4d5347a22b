//! The follower over a chart, by value and lent, and the published rules'
//! follower on expressions.
use super::chart::Chart;
use super::expression::{steps, tree, Expr, Node, Target};
use crate::{Answer, NOT_POSSIBLE, SPOILT, TAKEN};
use std::collections::BTreeSet;
use std::rc::Rc;

/// A set of vertices, bits as in a relation row, and the mark: 1 where the run is
/// spoilt, 0 where it isn't.
#[derive(Clone, Copy, PartialEq, Eq, Debug)]
pub struct State {
    pub set: [u8; 16],
    pub mark: u8,
}

impl State {
    /// No vertex, unspoilt.
    pub const EMPTY: State = State {
        set: [0; 16],
        mark: 0,
    };

    /// From the set's bytes and the mark after them; none where these are more
    /// or fewer than 17.
    pub fn read(bytes: &[u8]) -> Option<State> {
        let (mark, set) = bytes.split_last()?;
        Some(State {
            set: set.try_into().ok()?,
            mark: *mark,
        })
    }

    pub fn bytes(self) -> [u8; 17] {
        let mut bytes = [self.mark; 17];
        bytes[..16].copy_from_slice(&self.set);
        bytes
    }

    fn unspoilt(set: &BTreeSet<usize>) -> State {
        let mut state = State::EMPTY;
        for v in set {
            state.set[v / 8] |= 1 << (v % 8);
        }
        state
    }

    fn spoilt(self) -> State {
        State { mark: 1, ..self }
    }
}

/// The start alone, unspoilt. A refused restart (20, 21) hands back the empty
/// set, unspoilt too.
pub fn restart(chart: &[u8]) -> (Answer, State) {
    match Chart::read(chart) {
        Ok(chart) => {
            let set = BTreeSet::from([chart.start]);
            (said(&chart, &set, TAKEN), State::unspoilt(&set))
        }
        Err(refusal) => (refusal, State::EMPTY),
    }
}

/// An event. One that is not possible spoils the run and leaves the set; a state
/// that is spoilt, or that is refused (20, 21, 53), is handed back as it came.
pub fn event(chart: &[u8], state: State, event: u8) -> (Answer, State) {
    match followed(chart, state, event) {
        Ok(answer) => answer,
        Err(refusal) => (refusal, state),
    }
}

fn followed(chart: &[u8], state: State, event: u8) -> Result<(Answer, State), Answer> {
    let chart = Chart::read(chart)?;
    let (set, spoilt) = members(&chart, state)?;
    if spoilt {
        return Ok((Answer::fine(SPOILT, 0, 0), state));
    }
    let targets = targets(&chart, &set, event);
    if targets.is_empty() {
        return Ok((said(&chart, &set, NOT_POSSIBLE), state.spoilt()));
    }
    Ok((said(&chart, &targets, TAKEN), State::unspoilt(&targets)))
}

/// The vertices of a state, and whether it is spoilt; refused 53 where there is
/// no vertex, or one of V or above, or where the mark is neither 0 nor 1.
pub(super) fn members(chart: &Chart, state: State) -> Result<(BTreeSet<usize>, bool), Answer> {
    let set: BTreeSet<usize> = (0..128)
        .filter(|v| state.set[v / 8] & (1 << (v % 8)) != 0)
        .collect();
    if set.is_empty() || set.iter().any(|v| *v >= chart.vertices) || state.mark > 1 {
        return Err(Answer::new(53, 0, 0, 0));
    }
    Ok((set, state.mark == 1))
}

/// All targets of an event from some member; none where it isn't possible.
pub(super) fn targets(chart: &Chart, set: &BTreeSet<usize>, event: u8) -> BTreeSet<usize> {
    let transitions = chart.transitions.iter();
    transitions
        .filter(|t| t.action == event && set.contains(&t.from))
        .map(|t| t.to)
        .collect()
}

fn said(chart: &Chart, set: &BTreeSet<usize>, word: u64) -> Answer {
    let offered: BTreeSet<u8> = chart
        .transitions
        .iter()
        .filter(|t| set.contains(&t.from))
        .map(|t| t.action)
        .collect();
    Answer::fine(word, set.contains(&0) as u64, offered.len() as u64)
}

/// Restart on a lent state, whatever is in it; a refusal leaves it. A state of
/// another length than 17 bytes is refused 53, after 20 and 21.
pub fn restart_lent(chart: &[u8], state: &mut [u8]) -> Answer {
    let (answer, after) = restart(chart);
    if answer.is_refusal() {
        return answer;
    }
    if state.len() != 17 {
        return Answer::new(53, 0, 0, 0);
    }
    state.copy_from_slice(&after.bytes());
    answer
}

/// An event on a lent state; a refusal leaves it.
pub fn event_lent(chart: &[u8], state: &mut [u8], action: u8) -> Answer {
    // A state of another length counts as one without members.
    let before = State::read(state).unwrap_or(State::EMPTY);
    let (answer, after) = event(chart, before, action);
    if !answer.is_refusal() {
        state.copy_from_slice(&after.bytes());
    }
    answer
}

/// The follower that the published rules give: its members are expressions
/// and the end, its transitions those that the rules derive.
#[derive(Clone, Debug)]
pub struct RulesFollower {
    root: Rc<Expr>,
    /// A set: no member twice.
    members: Vec<Target>,
    spoilt: bool,
}

impl RulesFollower {
    /// At a fresh start.
    pub fn new(nodes: &[Node]) -> RulesFollower {
        let root = tree(nodes).erased();
        RulesFollower {
            members: vec![Target::Expr(root.clone())],
            spoilt: false,
            root,
        }
    }

    pub fn restart(&mut self) -> Answer {
        self.members = vec![Target::Expr(self.root.clone())];
        self.spoilt = false;
        self.said(TAKEN)
    }

    pub fn is_spoilt(&self) -> bool {
        self.spoilt
    }

    pub fn event(&mut self, event: u8) -> Answer {
        if self.members.is_empty() {
            return Answer::new(53, 0, 0, 0);
        }
        if self.spoilt {
            return Answer::fine(SPOILT, 0, 0);
        }
        let mut targets: Vec<Target> = Vec::new();
        for (action, target) in self.steps() {
            if action == event && !targets.contains(&target) {
                targets.push(target);
            }
        }
        if targets.is_empty() {
            self.spoilt = true;
            return self.said(NOT_POSSIBLE);
        }
        self.members = targets;
        self.said(TAKEN)
    }

    fn steps(&self) -> Vec<(u8, Target)> {
        let steps_of = |member: &Target| match member {
            Target::End => Vec::new(),
            Target::Expr(e) => steps(e),
        };
        self.members.iter().flat_map(steps_of).collect()
    }

    fn said(&self, word: u64) -> Answer {
        let offered: BTreeSet<u8> = self.steps().into_iter().map(|(action, _)| action).collect();
        let ended = self.members.contains(&Target::End);
        Answer::fine(word, ended as u64, offered.len() as u64)
    }
}
