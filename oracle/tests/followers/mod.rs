//! Some follower held against the plain one, on lent states, and lists of calls
//! over accepted files against the published rules' follower.
#![allow(dead_code)]
use crate::common::{
    all_lists, all_states, chart, damage_chart, files, four_vertices, g, long_state, some_state,
    Seen,
};
use oracle::gen::lists::{events, offered, state_with, Call};
use oracle::gen::{self, Rng};
use oracle::plain::{read_nodes, RulesFollower};
use oracle::{fast, plain, Answer, NOT_POSSIBLE, SPOILT, TAKEN};
use std::fmt::Display;

/// The calls of a follower on lent states, and the one that writes an
/// expression's chart for it.
#[derive(Clone, Copy)]
pub struct Follower {
    pub restart: fn(&[u8], &mut [u8]) -> Answer,
    pub event: fn(&[u8], &mut [u8], u8) -> Answer,
    pub write_chart: fn(&[u8], &mut [u8]) -> Answer,
}

const PLAIN: Follower = Follower {
    restart: plain::restart_lent,
    event: plain::event_lent,
    write_chart: plain::write_chart,
};

pub const FAST: Follower = Follower {
    restart: fast::restart_lent,
    event: fast::event_lent,
    write_chart: fast::write_chart,
};

impl Follower {
    pub fn answer(self, call: Call, chart: &[u8], state: &mut [u8]) -> Answer {
        match call {
            Call::Restart => (self.restart)(chart, state),
            Call::Event(action) => (self.event)(chart, state, action),
        }
    }

    fn expression_chart(self, nodes: &[u8]) -> Vec<u8> {
        let mut out = vec![0; 4 + 4 * 8192];
        let answer = (self.write_chart)(nodes, &mut out);
        out.truncate(answer.p as usize);
        out
    }
}

fn rules_answer(rules: &mut RulesFollower, call: Call) -> Answer {
    match call {
        Call::Restart => rules.restart(),
        Call::Event(action) => rules.event(action),
    }
}

/// An answer without its place, and only whether anything is offered.
fn kind(answer: Answer) -> Answer {
    let Answer { n, p, q, r } = answer;
    Answer::new(n, if n == 0 { p } else { 0 }, q, r.min(1))
}

/// A refusal's kind.
const fn refusal(n: u64) -> Answer {
    Answer::new(n, 0, 0, 0)
}

/// A follower that is tried, and how often it gave each kind of answer to
/// restarts and to events.
pub struct Trial {
    follower: Follower,
    restarts: Seen<Answer>,
    events: Seen<Answer>,
}

impl Trial {
    pub fn of(follower: Follower) -> Trial {
        let (restarts, events) = Default::default();
        Trial {
            follower,
            restarts,
            events,
        }
    }

    /// Both followers' one answer, on one state.
    pub fn call(
        &mut self,
        call: Call,
        chart: &[u8],
        state: &mut [u8],
        origin: &dyn Display,
    ) -> Answer {
        let before = state.to_vec();
        let mut other = before.clone();
        let plain = PLAIN.answer(call, chart, state);
        let tried = self.follower.answer(call, chart, &mut other);
        assert!(
            plain == tried && *state == other[..],
            "{origin}, {call:?}: plain {plain:?}, the other {tried:?}\n\
             chart {}\nbefore {}\nplain {}\nother {}",
            gen::hex(chart),
            gen::hex(&before),
            gen::hex(state),
            gen::hex(&other)
        );
        assert!(
            allows(call, plain, &before, state),
            "{origin}, {call:?}: {plain:?} made {before:?} into {state:?}"
        );
        let seen = match call {
            Call::Restart => &mut self.restarts,
            Call::Event(_) => &mut self.events,
        };
        seen.note(kind(plain));
        plain
    }

    /// Just these kinds of answers were given, each so often at least, and so
    /// many in all.
    fn saw(&self, restarts: &[Answer], events: &[Answer], each: u64, all: u64) {
        self.restarts.are(restarts, each, 0);
        let of_events = all.saturating_sub(self.restarts.all());
        self.events.are(events, each, of_events);
    }

    /// Half of the answers to events that aren't refused are "taken", and each
    /// of the other words is one of twenty at least.
    fn saw_each_word_often(&self) {
        let times = |word| self.events.like(|kind| kind.n == 0 && kind.p == word);
        let [taken, not_possible, spoilt] = [TAKEN, NOT_POSSIBLE, SPOILT].map(times);
        let all = taken + not_possible + spoilt;
        assert!(
            2 * taken >= all && 20 * not_possible >= all && 20 * spoilt >= all,
            "{taken} {not_possible} {spoilt}"
        );
    }
}

/// Whether a state may come of another by this answer. Only a restart takes the
/// mark away, and only "not possible" puts it there, with the set as it was.
fn allows(call: Call, answer: Answer, before: &[u8], after: &[u8]) -> bool {
    let marks = || (before[16], after[16]);
    match (answer.n, answer.p) {
        (0, TAKEN) if call == Call::Restart => after[16] == 0,
        (0, TAKEN) => marks() == (0, 0),
        (0, NOT_POSSIBLE) => marks() == (0, 1) && before[..16] == after[..16],
        (0, SPOILT) => marks() == (1, 1) && before == after,
        _ => before == after,
    }
}

/// Taken or not possible, with and without the end, a deadlock or an offer; or
/// spoilt.
const FOLLOWED: [Answer; 9] = [
    Answer::fine(NOT_POSSIBLE, 0, 0),
    Answer::fine(NOT_POSSIBLE, 0, 1),
    Answer::fine(NOT_POSSIBLE, 1, 0),
    Answer::fine(NOT_POSSIBLE, 1, 1),
    Answer::fine(TAKEN, 0, 0),
    Answer::fine(TAKEN, 0, 1),
    Answer::fine(TAKEN, 1, 0),
    Answer::fine(TAKEN, 1, 1),
    SPOILT_ANSWER,
];

const SPOILT_ANSWER: Answer = Answer::fine(SPOILT, 0, 0);

/// The start is never the end.
const RESTARTED: [Answer; 2] = [Answer::fine(TAKEN, 0, 0), Answer::fine(TAKEN, 0, 1)];

const REFUSED: [Answer; 3] = [refusal(20), refusal(21), refusal(53)];

/// The panel's chart, the expression's chart and the rules: one list of answers,
/// and one mark after each.
pub fn lists_against_the_rules(follower: Follower, first: u64) {
    let mut trial = Trial::of(follower);
    for seed in first..first + files(1_000) {
        let yard = gen::accepted(seed);
        let own = follower.expression_chart(&yard.expression);
        let nodes = read_nodes(&yard.expression).expect("an accepted file's expression");
        let mut rules = RulesFollower::new(&nodes);
        // Whatever is there before the first restart.
        let (mut panel, mut expression) = ([0xFF; 17], [0; 17]);
        let mut list = events(&mut Rng::new(seed), &yard, 40);
        list.insert(0, Call::Restart);
        for (at, call) in list.into_iter().enumerate() {
            let answers = [
                trial.call(call, &yard.chart, &mut panel, &seed),
                trial.call(call, &own, &mut expression, &seed),
                rules_answer(&mut rules, call),
            ];
            let marks = [panel[16], expression[16], rules.is_spoilt().into()];
            assert!(
                answers == [answers[0]; 3] && marks == [marks[0]; 3],
                "seed {seed}, {call:?} at {at}: {answers:?}, marks {marks:?}\nfile {}",
                gen::hex(&yard.file())
            );
        }
    }
    trial.saw(&RESTARTED, &FOLLOWED, 20, 50_000);
    trial.saw_each_word_often();
}

/// Each list of six calls over a small chart, and long ones over accepted files'.
pub fn spoilt_until_a_restart(follower: Follower, first: u64) {
    let mut trial = Trial::of(follower);
    let small = chart(3, 1, &[(1, 1, 1), (1, 1, 2), (1, 2, 0), (2, 3, 0)]).bytes();
    let calls = [1, 2, 3].map(Call::Event).into_iter();
    let calls: Vec<Call> = calls.chain([Call::Restart]).collect();
    for list in all_lists(&calls, 6) {
        run_whole(&mut trial, &small, &list);
    }
    for seed in first..first + files(200) {
        let yard = gen::accepted(seed);
        let list = events(&mut Rng::new(seed), &yard, 100);
        run_whole(&mut trial, &yard.chart, &list);
    }
    trial.saw(&RESTARTED, &FOLLOWED, 20, 40_000);
}

/// Over a whole list from a fresh start, "spoilt" is answered at just the events
/// that come after one that is not possible with no restart between them.
fn run_whole(trial: &mut Trial, chart: &[u8], list: &[Call]) {
    let mut state = [0; 17];
    trial.call(Call::Restart, chart, &mut state, &"a fresh start");
    let mut answers: Vec<Answer> = Vec::new();
    for (at, call) in list.iter().enumerate() {
        let answer = trial.call(*call, chart, &mut state, &"a whole list");
        let restarted = list[..at].iter().rposition(|call| *call == Call::Restart);
        let since = restarted.map_or(0, |restart| restart + 1);
        let is_wrong = |answer: &Answer| answer.p == NOT_POSSIBLE;
        let spoilt = *call != Call::Restart && answers[since..].iter().any(is_wrong);
        assert!(
            answer.n == 0 && (answer == SPOILT_ANSWER) == spoilt,
            "{answer:?} at {at} of {list:?}\nchart {}",
            gen::hex(chart)
        );
        assert_eq!(answer.p == SPOILT, spoilt, "no other answer has the word");
        answers.push(answer);
    }
}

/// Such a list tells an action that was changed in the panel's chart.
pub fn another_action_is_found_out(follower: Follower, first: u64) {
    let mut trial = Trial::of(follower);
    let mut differing = 0;
    for seed in first..first + files(200) {
        let mut yard = gen::accepted(seed);
        if yard.labelling.is_empty() {
            continue;
        }
        let mut list = events(&mut Rng::new(seed), &yard, 60);
        list.insert(0, Call::Restart);
        let last = yard.chart.len() - 4;
        yard.chart[last + 1] = 254;
        let nodes = read_nodes(&yard.expression).expect("an accepted file's expression");
        let mut rules = RulesFollower::new(&nodes);
        let mut state = [0; 17];
        differing += list.into_iter().any(|call| {
            let answer = trial.call(call, &yard.chart, &mut state, &seed);
            answer != rules_answer(&mut rules, call)
        }) as u64;
    }
    assert!(differing > files(100), "{differing}");
}

/// Damaged charts and any states, with a few calls on each.
pub fn any_bytes(follower: Follower, first: u64) {
    let mut trial = Trial::of(follower);
    for seed in first..first + files(6_000) {
        let mut rng = Rng::new(seed);
        let mut chart = gen::accepted(first + (seed - first) / 4).chart;
        if chart.len() > 4_000 {
            continue;
        }
        if rng.percent(25) {
            damage_chart(&mut rng, &mut chart);
        }
        let mut state = some_state(&mut rng, &chart);
        for at in 0..6 {
            let call = match at {
                4 => Call::Restart,
                _ => some_event(&mut rng, &chart, &state),
            };
            trial.call(call, &chart, &mut state, &seed);
        }
    }
    let restarts = [&RESTARTED[..], &REFUSED].concat();
    let events = [&FOLLOWED[..], &REFUSED].concat();
    trial.saw(&restarts, &events, 20, 20_000);
    trial.saw_each_word_often();
}

/// Mostly one that leaves a vertex of the set, else any of the chart, or any.
fn some_event(rng: &mut Rng, chart: &[u8], state: &[u8]) -> Call {
    let set = state
        .first_chunk()
        .map_or(0, |set| u128::from_le_bytes(*set));
    let mut actions = offered(chart, set);
    if actions.is_empty() || rng.percent(15) {
        actions = offered(chart, u128::MAX);
        actions.extend([0, rng.word() as u8]);
    }
    Call::Event(rng.pick(&actions))
}

/// Over a chart of four vertices all states, with all its actions and some others.
pub fn all_of_a_small_chart(follower: Follower) {
    let mut trial = Trial::of(follower);
    let chart = four_vertices().bytes();
    for state in all_states() {
        let events = [0, 1, 2, 3, 254, 255].map(Call::Event);
        for call in events.into_iter().chain([Call::Restart]) {
            trial.call(call, &chart, &mut state.clone(), &"a small chart");
        }
    }
    let events = [&FOLLOWED[..], &[refusal(53)]].concat();
    trial.saw(&[RESTARTED[1], refusal(53)], &events, 2, 1_576 * 7);
}

/// Document 01's list, over both charts; then an event more, which is spoilt, and
/// from a restart on the list again.
pub fn starred_run(follower: Follower) {
    let mut trial = Trial::of(follower);
    let own = follower.expression_chart(&g().expression);
    for chart in [g().chart, own] {
        let mut state = [0; 17];
        for _ in 0..2 {
            for (call, answer) in [
                (Call::Restart, Answer::fine(TAKEN, 0, 2)),
                (Call::Event(1), Answer::fine(TAKEN, 0, 2)),
                (Call::Event(2), Answer::fine(TAKEN, 1, 0)),
                (Call::Event(1), Answer::fine(NOT_POSSIBLE, 1, 0)),
                (Call::Event(1), Answer::fine(SPOILT, 0, 0)),
            ] {
                assert_eq!(trial.call(call, &chart, &mut state, &"the list"), answer);
            }
            assert_eq!(state, state_with(1, 1), "the end alone, spoilt");
        }
    }
}

/// States that 53 refuses over a chart of three vertices.
fn refused_states() -> Vec<Vec<u8>> {
    let marked = [(0, 0), (0, 1), (0, 2), (2, 2), (2, 255), (8, 0), (9, 1)];
    let marked = marked.map(|(set, mark)| state_with(set, mark).to_vec());
    let lengths = [0, 15, 16, 18].map(long_state);
    [&marked[..], &lengths].concat()
}

/// 20, 21 and 53 come before "spoilt" and before what an event is; a restart
/// takes any 17 bytes.
pub fn order_of_refusals(follower: Follower) {
    let mut trial = Trial::of(follower);
    let chart = chart(3, 1, &[(1, 1, 1), (2, 1, 0)]).bytes();
    let (mut no_chart, mut unordered) = (chart.clone(), chart.clone());
    no_chart[0] = 129;
    unordered[8] = 0;
    let spoilt = state_with(2, 1).to_vec();
    let calls = [Call::Event(0), Call::Event(1), Call::Restart];
    for state in [&refused_states()[..], &[spoilt]].concat() {
        for (body, n, p) in [(&no_chart, 20, 0), (&unordered, 21, 1)] {
            for call in calls {
                let answer = trial.call(call, body, &mut state.clone(), &"no chart");
                assert_eq!(answer, Answer::new(n, p, 0, 0), "{call:?} {state:?}");
            }
        }
    }
    for mut state in refused_states() {
        for call in &calls[..2] {
            let answer = trial.call(*call, &chart, &mut state, &"no state");
            assert_eq!(answer, refusal(53), "{call:?} {state:?}");
        }
        let answer = trial.call(Call::Restart, &chart, &mut state, &"any state");
        if state.len() == 17 {
            assert_eq!(answer, Answer::fine(TAKEN, 0, 1));
            assert_eq!(state, state_with(2, 0));
        } else {
            assert_eq!(answer, refusal(53), "{state:?}");
        }
    }
    for set in [1, 2, 4, 7] {
        for call in &calls[..2] {
            let mut state = state_with(set, 1);
            let answer = trial.call(*call, &chart, &mut state, &"spoilt");
            assert_eq!(answer, SPOILT_ANSWER, "{call:?} {set}");
        }
    }
}

/// Calls over the largest charts, and over the weighbridge's.
pub fn at_the_limits(follower: Follower) {
    let mut trial = Trial::of(follower);
    for (name, mut made) in gen::worst::follower_calls() {
        let small = name.starts_with("weighbridge");
        assert_eq!(made.chart[..4] == [128, 127, 0, 32], !small, "{name}");
        trial.call(made.call, &made.chart, &mut made.state, &name);
    }
    let events = [FOLLOWED[1], FOLLOWED[3], FOLLOWED[5], SPOILT_ANSWER];
    trial.saw(&RESTARTED[1..], &events, 1, 12);
}
