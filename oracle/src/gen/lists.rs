//! Lists of calls over an accepted file.
use super::rng::Rng;
use super::Yard;
use crate::plain::{loops, Chart};

/// Pairs (vertex, level) for removals: mostly loops of the file, whether they
/// still stand by then or not, and some that name no loop.
pub fn removals(rng: &mut Rng, yard: &Yard, count: usize) -> Vec<(u64, u64)> {
    let Ok(chart) = Chart::read(&yard.chart) else {
        return Vec::new();
    };
    let all: Vec<(u64, u64)> = loops(&chart, &yard.labelling)
        .into_iter()
        .map(|(v, level)| (v as u64, level as u64))
        .collect();
    let one = |rng: &mut Rng| match rng.below(12) {
        0 => (rng.below(chart.vertices + 3) as u64, rng.below(6) as u64),
        1 => (rng.word(), rng.word()),
        2 if !all.is_empty() => (rng.pick(&all).0, rng.pick(&[0, 255, 256, 257])),
        3 if !all.is_empty() => (rng.pick(&all).0 + 256, rng.pick(&all).1),
        4 if !all.is_empty() => (rng.pick(&all).0, rng.pick(&all).1 + 256),
        _ if !all.is_empty() => rng.pick(&all),
        _ => (1, 1),
    };
    (0..count).map(|_| one(rng)).collect()
}

/// A call of the follower.
#[derive(Clone, Copy, PartialEq, Eq, Debug)]
pub enum Call {
    Restart,
    Event(u8),
}

/// A follower's state: the set's bytes, and the mark.
pub type State = [u8; 17];

pub fn state_with(set: u128, mark: u8) -> State {
    let mut state = [mark; 17];
    state[..16].copy_from_slice(&set.to_le_bytes());
    state
}

/// The transitions of a chart body, well-formed or not, that leave a set.
fn leaving(chart: &[u8], set: u128) -> impl Iterator<Item = &[u8]> {
    let steps = chart.get(4..).unwrap_or(&[]).chunks_exact(4);
    steps.filter(move |step| step[0] < 128 && set >> step[0] & 1 == 1)
}

/// The actions of these transitions, each as often as it comes.
pub fn offered(chart: &[u8], set: u128) -> Vec<u8> {
    leaving(chart, set).map(|step| step[1]).collect()
}

/// Where calls have led to, so that the next one can be drawn.
struct Run<'a> {
    yard: &'a Yard,
    set: u128,
    spoilt: bool,
}

impl<'a> Run<'a> {
    fn fresh(yard: &'a Yard) -> Run<'a> {
        Run {
            yard,
            set: 1 << yard.chart[1],
            spoilt: false,
        }
    }

    /// Mostly an event that is possible, or would be if the run weren't spoilt;
    /// of the others, the expression's actions, 0 and 255.
    fn some_call(&self, rng: &mut Rng) -> Call {
        let mut actions = offered(&self.yard.chart, self.set);
        let restarts = match (self.spoilt, actions.is_empty()) {
            (true, _) => 30,
            (false, true) => 50,
            (false, false) => 4,
        };
        if rng.percent(restarts) {
            return Call::Restart;
        }
        if actions.is_empty() || rng.percent(10) {
            let leaves = self.yard.expression.chunks(4).filter(|node| node[0] == 1);
            actions = leaves.map(|node| node[1]).chain([0, 255]).collect();
        }
        Call::Event(rng.pick(&actions))
    }

    fn after(self, call: Call) -> Run<'a> {
        let action = match call {
            Call::Restart => return Run::fresh(self.yard),
            Call::Event(action) => action,
        };
        let steps = leaving(&self.yard.chart, self.set).filter(|step| step[1] == action);
        let targets = steps.fold(0, |set, step| set | 1 << step[2]);
        if self.spoilt || targets == 0 {
            return Run {
                spoilt: true,
                ..self
            };
        }
        Run {
            set: targets,
            ..self
        }
    }
}

/// Restarts and events over an accepted file's chart, from a fresh start on.
/// Most events are possible, so that lists go on; some spoil the run, and soon
/// after that there is a restart.
pub fn events(rng: &mut Rng, yard: &Yard, count: usize) -> Vec<Call> {
    let mut run = Run::fresh(yard);
    let mut calls = Vec::new();
    for _ in 0..count {
        let call = run.some_call(rng);
        run = run.after(call);
        calls.push(call);
    }
    calls
}
