//! Some shortest way held against the plain one and against its definition, in
//! lent bytes of every length that matters. Where there are too many sets for
//! the plain one, against its definition alone.
#![allow(dead_code)]
use crate::common::{
    all_states, chart, damage_chart, files, four_vertices, g, pattern, some_state, Seen,
};
use crate::followers::Follower;
use oracle::gen::charts::{renamed, shuffled};
use oracle::gen::lists::{events, state_with, Call, State};
use oracle::gen::{self, Rng};
use oracle::plain::{self, Chart};
use oracle::{Answer, TAKEN};
use std::fmt::Display;

/// Takes a chart, a state and lent bytes.
pub type Way = fn(&[u8], &[u8], &mut [u8]) -> Answer;

/// An answer, and the list that it says is written.
type Found = (Answer, Vec<u8>);

/// More bytes than any list has.
const ROOM: usize = 140;

fn way_of(list: &[u8]) -> Found {
    (Answer::fine(list.len() as u64, 0, 0), list.to_vec())
}

fn refusal(n: u64, p: usize) -> Found {
    (Answer::new(n, p as u64, 0, 0), Vec::new())
}

/// An unspoilt state with these vertices.
fn state_of(vertices: &[usize]) -> State {
    state_with(vertices.iter().fold(0, |set, v| set | 1 << v), 0)
}

fn spoilt(mut state: State) -> State {
    state[16] = 1;
    state
}

fn is_spoilt(state: State) -> bool {
    state[16] == 1
}

fn has(state: State, vertex: usize) -> bool {
    state[vertex / 8] >> (vertex % 8) & 1 == 1
}

/// A chart, and for each vertex how many transitions the end is away, where it
/// can be reached. Fewer events take no set with just such vertices, or
/// farther ones, to a set with the end.
struct Measured {
    body: Vec<u8>,
    chart: Chart,
    away: Vec<Option<usize>>,
}

impl Measured {
    fn of(body: &[u8]) -> Measured {
        let chart = Chart::read(body).expect("a well-formed chart");
        let mut away = vec![None; chart.vertices];
        away[0] = Some(0);
        for length in 1..chart.vertices {
            for t in &chart.transitions {
                if away[t.to] == Some(length - 1) {
                    away[t.from] = away[t.from].or(Some(length));
                }
            }
        }
        let body = body.to_vec();
        Measured { body, chart, away }
    }

    /// How many events a list has at least. From a spoilt state there is none.
    fn needed(&self, state: State) -> Option<usize> {
        if is_spoilt(state) {
            return None;
        }
        let members = (0..self.chart.vertices).filter(|v| has(state, *v));
        members.filter_map(|v| self.away[v]).min()
    }

    fn hold(&self, state: State, found: &Found, origin: &dyn Display) {
        assert!(
            self.allows(state, found),
            "{origin}: {found:?}\nchart {}\nstate {}",
            gen::hex(&self.body),
            gen::hex(&state)
        );
    }

    /// What is found is what is meant, where enough bytes are lent.
    fn allows(&self, state: State, (answer, list): &Found) -> bool {
        match self.needed(state) {
            None => *answer == refusal(55, 0).0,
            Some(needed) => {
                let states = self.states(state, list);
                *answer == Answer::fine(needed as u64, 0, 0)
                    && states.len() == needed + 1
                    && has(states[needed], 0)
                    && !is_spoilt(states[needed])
                    && !self.has_a_lower(&states, list)
            }
        }
    }

    /// The states that the follower's events lead to, the first one included;
    /// none after an event that isn't taken.
    fn states(&self, mut state: State, list: &[u8]) -> Vec<State> {
        let mut states = vec![state];
        for event in list {
            let answer = plain::event_lent(&self.body, &mut state, *event);
            if (answer.n, answer.p) != (0, TAKEN) {
                break;
            }
            states.push(state);
        }
        states
    }

    /// A lower event in some place, after which the end is near enough for as
    /// long a list. It is possible: one that isn't spoils the run.
    fn has_a_lower(&self, states: &[State], list: &[u8]) -> bool {
        let mut places = states.iter().zip(list).enumerate();
        places.any(|(at, (state, event))| {
            let left = list.len() - at;
            let mut lower = self.chart.transitions.iter().filter(|t| t.action < *event);
            lower.any(|t| has(*state, t.from) && self.away[t.to].is_some_and(|away| away < left))
        })
    }
}

/// What is found in fewer lent bytes, or more.
fn in_bytes(lent: usize, found: &Found) -> Found {
    let needed = found.1.len();
    if lent < needed {
        return refusal(54, needed);
    }
    found.clone()
}

/// A call that is tried, and how often it gave each number.
pub struct Trial {
    way: Way,
    seen: Seen<u64>,
}

impl Trial {
    pub fn of(way: Way) -> Trial {
        let seen = Seen::default();
        Trial { way, seen }
    }

    /// What is found in so many lent bytes; those that no list is written to
    /// are kept.
    fn run(&mut self, chart: &[u8], state: &[u8], lent: usize, origin: &dyn Display) -> Found {
        let before = pattern(lent);
        let mut out = before.clone();
        let answer = (self.way)(chart, state, &mut out);
        let length = if answer.n == 0 { answer.p as usize } else { 0 };
        assert!(
            length <= lent && out[length..] == before[length..],
            "{origin}: {answer:?}\nchart {}\nstate {}\nbefore {}\nafter {}",
            gen::hex(chart),
            gen::hex(state),
            gen::hex(&before),
            gen::hex(&out)
        );
        self.seen.note(answer.n);
        out.truncate(length);
        (answer, out)
    }

    /// What both calls find in so many lent bytes.
    pub fn call(&mut self, chart: &[u8], state: &[u8], lent: usize, origin: &dyn Display) -> Found {
        let tried = self.run(chart, state, lent, origin);
        let plain = Trial::of(plain::shortest_way).run(chart, state, lent, origin);
        assert!(
            tried == plain,
            "{origin}, {lent} bytes lent: plain {plain:?}, the other {tried:?}\nchart {}\nstate {}",
            gen::hex(chart),
            gen::hex(state)
        );
        tried
    }

    /// What both calls find, in lent bytes of each length up to three more than
    /// are needed.
    fn lengths(&mut self, chart: &[u8], state: &[u8], origin: &dyn Display) -> Found {
        let found = self.call(chart, state, ROOM, origin);
        for lent in 0..=found.1.len() + 3 {
            let other = self.call(chart, state, lent, origin);
            assert_eq!(other, in_bytes(lent, &found), "{origin}");
        }
        if [0, 55].contains(&found.0.n) {
            let state = state.try_into().expect("17 bytes");
            Measured::of(chart).hold(state, &found, origin);
        }
        found
    }

    /// What the call finds, in enough lent bytes, just enough, one too few and
    /// none.
    fn measured(&mut self, on: &Measured, state: State, origin: &dyn Display) -> Found {
        let found = self.run(&on.body, &state, ROOM, origin);
        on.hold(state, &found, origin);
        let needed = found.1.len();
        for lent in [needed, needed.saturating_sub(1), 0] {
            let other = self.run(&on.body, &state, lent, origin);
            assert_eq!(other, in_bytes(lent, &found), "{origin}");
        }
        found
    }
}

/// Actions for a chart: few, so that lists have much in common.
fn some_actions(rng: &mut Rng) -> &'static [u8] {
    rng.pick(&[&[1], &[1, 2], &[7, 8, 9], &[1, 127, 128, 255]])
}

/// Any transitions among a few vertices, few of them to the end.
fn scattered(rng: &mut Rng) -> Chart {
    let vertices = rng.between(2, 8);
    let actions = some_actions(rng);
    let mut steps = Vec::new();
    for from in 1..vertices {
        for _ in 0..rng.below(4) {
            let lowest = if rng.percent(20) { 0 } else { 1 };
            steps.push((from, rng.pick(actions), rng.between(lowest, vertices - 1)));
        }
    }
    chart(vertices, 1, &steps)
}

/// Layers of a few vertices, of which most lead to the next layer: many ways
/// have the same length. Some transitions stay or lead back.
fn layered(rng: &mut Rng) -> Chart {
    let width = rng.between(1, 3);
    let vertices = 1 + width * rng.between(1, 6);
    let actions = some_actions(rng);
    let mut steps = Vec::new();
    for from in 1..vertices {
        let layer = (from - 1) / width;
        for _ in 0..rng.below(4) {
            let to = match layer {
                0 => 0,
                _ => 1 + width * (layer - 1) + rng.below(width),
            };
            steps.push((from, rng.pick(actions), to));
        }
        if rng.percent(30) {
            let to = rng.between(1 + width * layer, vertices - 1);
            steps.push((from, rng.pick(actions), to));
        }
    }
    let chart = chart(vertices, vertices - 1, &steps);
    renamed(&chart, &shuffled(rng, vertices))
}

/// Small charts of many shapes, connected or not, and any states.
pub fn random_charts(way: Way, first: u64) {
    let mut trial = Trial::of(way);
    let mut longest = 0;
    for seed in first..first + files(3_000) {
        let mut rng = Rng::new(seed);
        let chart = if seed % 2 == 0 {
            scattered(&mut rng)
        } else {
            layered(&mut rng)
        };
        let chart = chart.bytes();
        for _ in 0..3 {
            let state = some_state(&mut rng, &chart);
            let (_, list) = trial.lengths(&chart, &state, &seed);
            longest = longest.max(list.len());
        }
    }
    assert!(longest >= 6, "{longest}");
    trial.seen.are(&[0, 53, 54, 55], 1_000, 40_000);
}

/// A chart body of at most 20 vertices and 120 transitions: the plain search has
/// not too many sets then.
fn is_modest(chart: &[u8]) -> bool {
    chart[0] <= 20 && chart.len() <= 4 + 4 * 120
}

/// The charts of accepted files, in states that events lead to and others.
pub fn accepted_files(way: Way, first: u64) {
    let mut trial = Trial::of(way);
    let mut large = 0;
    for seed in first..first + files(600) {
        let yard = gen::accepted(seed);
        let mut rng = Rng::new(seed);
        let on = Measured::of(&yard.chart);
        let mut state = [0; 17];
        let mut calls = vec![Call::Restart];
        calls.extend(events(&mut rng, &yard, 4));
        for call in calls {
            match call {
                Call::Restart => plain::restart_lent(&yard.chart, &mut state),
                Call::Event(event) => plain::event_lent(&yard.chart, &mut state, event),
            };
            let several = (0..3).map(|_| rng.between(1, on.chart.vertices - 1));
            for state in [state, state_of(&several.collect::<Vec<_>>())] {
                if is_modest(&on.body) {
                    trial.lengths(&yard.chart, &state, &seed);
                } else {
                    trial.measured(&on, state, &seed);
                    large += 1;
                }
            }
        }
    }
    assert!(large >= files(500), "{large}");
    trial.seen.are(&[0, 54, 55], 1_000, 20_000);
}

/// Along lists of calls of a follower: each list that is written leads to the end
/// by events that are all taken, and where the run is spoilt there is none, until
/// a restart.
pub fn along_runs(way: Way, follower: Follower, first: u64) {
    let mut trial = Trial::of(way);
    let (mut spoilt_runs, mut with_the_end) = (0, 0);
    for seed in first..first + files(300) {
        let yard = gen::accepted(seed);
        let mut state = [0; 17];
        let mut calls = vec![Call::Restart];
        calls.extend(events(&mut Rng::new(seed), &yard, 30));
        for call in calls {
            follower.answer(call, &yard.chart, &mut state);
            let found = trial.run(&yard.chart, &state, ROOM, &seed);
            if is_spoilt(state) {
                assert_ne!(call, Call::Restart, "{seed}");
                assert_eq!(found, refusal(55, 0), "{seed}, spoilt {state:?}");
                spoilt_runs += 1;
                with_the_end += has(state, 0) as u64;
            }
            let is_way = found.0.n == 0;
            assert!(
                !is_way || leads_to_the_end(follower, &yard.chart, state, &found.1),
                "{seed}, {state:?}: {found:?}"
            );
        }
    }
    assert!(
        spoilt_runs > files(1_500) && with_the_end > files(300),
        "{spoilt_runs} {with_the_end}"
    );
    trial.seen.are(&[0, 55], 2_000, 9_000);
}

/// All these events are taken, and the end is in the set after them, unspoilt.
fn leads_to_the_end(follower: Follower, chart: &[u8], mut state: State, list: &[u8]) -> bool {
    let mut events = list.iter();
    let taken = |event: &u8| {
        let answer = follower.answer(Call::Event(*event), chart, &mut state);
        (answer.n, answer.p) == (0, TAKEN)
    };
    events.all(taken) && has(state, 0) && !is_spoilt(state)
}

/// Damaged charts and any states.
pub fn any_bytes(way: Way, first: u64) {
    let mut trial = Trial::of(way);
    for seed in first..first + files(4_000) {
        let mut rng = Rng::new(seed);
        let mut chart = match seed % 3 {
            0 => scattered(&mut rng).bytes(),
            1 => layered(&mut rng).bytes(),
            _ => gen::accepted(seed).chart,
        };
        if !is_modest(&chart) {
            continue;
        }
        if rng.percent(50) {
            damage_chart(&mut rng, &mut chart);
        }
        let state = some_state(&mut rng, &chart);
        trial.lengths(&chart, &state, &seed);
    }
    trial.seen.are(&[0, 20, 21, 53, 54, 55], 500, 15_000);
}

/// Two vertices and the end: each chart with two actions, and each set, spoilt or
/// not.
pub fn all_small_charts(way: Way) {
    let mut places = Vec::new();
    for from in [1, 2] {
        for action in [1, 255] {
            places.extend([0, 1, 2].map(|to| (from, action, to)));
        }
    }
    let mut trial = Trial::of(way);
    for code in 0..1 << places.len() {
        let chosen = (0..places.len()).filter(|i| code >> i & 1 == 1);
        let steps: Vec<_> = chosen.map(|i| places[i]).collect();
        let chart = chart(3, 1, &steps).bytes();
        for set in 1..8 {
            let origin = format!("{steps:?}");
            trial.lengths(&chart, &state_with(set, 0), &origin);
            let found = trial.lengths(&chart, &state_with(set, 1), &origin);
            assert_eq!(found, refusal(55, 0), "{origin}, {set}");
        }
    }
    trial.seen.are(&[0, 54, 55], 1_000, 4_096 * 7 * 10);
}

/// Over a chart of four vertices all states.
pub fn all_states_of_a_small_chart(way: Way) {
    let mut trial = Trial::of(way);
    let chart = four_vertices().bytes();
    for state in all_states() {
        trial.lengths(&chart, &state, &"a small chart");
    }
    trial.seen.are(&[0, 53, 54, 55], 5, 1_576 * 4);
}

/// The end in the set: no event, also in no bytes, whatever else is there. But
/// where the run is spoilt, there is no way.
pub fn at_the_end(way: Way) {
    let mut trial = Trial::of(way);
    for chart in [g().chart, chart(3, 1, &[]).bytes()] {
        for state in [state_of(&[0]), state_of(&[0, 1])] {
            assert_eq!(trial.lengths(&chart, &state, &"the end"), way_of(&[]));
            let found = trial.lengths(&chart, &spoilt(state), &"the end, spoilt");
            assert_eq!(found, refusal(55, 0));
        }
    }
    trial.seen.are(&[0, 55], 16, 32);
}

/// The lists of single states: document 01's G and the chart of two loops, then
/// lists of equal length, of which the first differing action decides.
pub fn single_lists(way: Way) {
    let mut trial = Trial::of(way);
    let g = Chart::read(&g().chart).expect("G's chart");
    let two_loops = crate::common::two_loops();
    let crossed = chart(4, 1, &[(1, 5, 2), (1, 3, 3), (2, 1, 0), (3, 9, 0)]);
    // One action leads to two vertices, and the higher one has the lower action.
    let forked = chart(4, 1, &[(1, 1, 2), (1, 1, 3), (2, 5, 0), (3, 2, 0)]);
    // The lowest action stays, the next one leads away from the end.
    let detour = [(1, 1, 1), (1, 2, 2), (1, 3, 3), (2, 1, 1), (3, 255, 0)];
    let detour = chart(4, 1, &detour);
    // The end is two events away, and by a lower action three.
    let longer = [(1, 1, 2), (2, 1, 3), (3, 1, 0), (1, 2, 4), (4, 9, 0)];
    let longer = chart(5, 1, &longer);
    let cases: [(&Chart, &[usize], &[u8]); 11] = [
        (&g, &[1], &[2]),
        (&two_loops, &[1], &[3]),
        (&two_loops, &[2], &[2, 3]),
        (&two_loops, &[1, 2], &[3]),
        (&crossed, &[1], &[3, 9]),
        (&crossed, &[2, 3], &[1]),
        (&crossed, &[1, 3], &[9]),
        (&forked, &[1], &[1, 2]),
        (&forked, &[2, 3], &[2]),
        (&detour, &[1, 2], &[3, 255]),
        (&longer, &[1], &[2, 9]),
    ];
    for (chart, vertices, list) in cases {
        let found = trial.lengths(&chart.bytes(), &state_of(vertices), &"a single list");
        assert_eq!(found, way_of(list), "{chart:?} {vertices:?}");
    }
}

/// A vertex without a transition, a round without a way out, and a vertex that
/// leads to both; 55 also where nothing is lent, and a way as soon as one vertex
/// of the set has it and the run is not spoilt.
pub fn without_a_way(way: Way) {
    let mut trial = Trial::of(way);
    let steps = [(2, 1, 3), (3, 1, 2), (4, 1, 1), (4, 2, 2), (5, 4, 0)];
    let chart = chart(6, 1, &steps).bytes();
    for vertices in [&[1][..], &[2], &[2, 3], &[4], &[1, 2, 3, 4]] {
        let found = trial.lengths(&chart, &state_of(vertices), &"no way");
        assert_eq!(found, refusal(55, 0), "{vertices:?}");
    }
    let all = state_of(&[1, 2, 3, 4, 5]);
    assert_eq!(trial.lengths(&chart, &all, &"one way"), way_of(&[4]));
    let found = trial.lengths(&chart, &spoilt(all), &"spoilt");
    assert_eq!(found, refusal(55, 0));
}

/// Where several refusals have a cause, the first in their order.
pub fn order_of_refusals(way: Way) {
    let mut trial = Trial::of(way);
    let steps = [(1, 1, 1), (2, 1, 0)];
    let chart = chart(3, 1, &steps).bytes();
    let (mut no_chart, mut unordered) = (chart.clone(), chart.clone());
    no_chart[0] = 129;
    unordered[8] = 0;
    let near = state_of(&[1, 2]);
    let marked = |set, mark| state_with(set, mark).to_vec();
    let states = [
        marked(0, 0),
        marked(0, 1),
        marked(0b110, 2),
        marked(u128::MAX, 1),
        marked(u128::MAX, 255),
        near[..16].to_vec(),
        [&near[..], &[0]].concat(),
        [&spoilt(near)[..], &[1]].concat(),
    ];
    let both = [&no_chart, &unordered, &chart];
    for (body, wanted) in both.into_iter().zip([(20, 0), (21, 1), (53, 0)]) {
        for state in &states {
            let found = trial.lengths(body, state, &"all wrong");
            assert_eq!(found, refusal(wanted.0, wanted.1), "{state:?}");
        }
    }
    for (body, wanted) in both.into_iter().zip([(20, 0), (21, 1), (55, 0)]) {
        let found = trial.lengths(body, &spoilt(near), &"spoilt");
        assert_eq!(found, refusal(wanted.0, wanted.1));
    }
    let stuck = state_of(&[1]);
    assert_eq!(trial.call(&chart, &stuck, 0, &"stuck"), refusal(55, 0));
    assert_eq!(trial.call(&chart, &near, 0, &"near"), refusal(54, 1));
    assert_eq!(trial.call(&chart, &near, 1, &"near"), way_of(&[1]));
}

/// The longest list, in lent bytes of each length.
pub fn a_line(way: Way) {
    let mut trial = Trial::of(way);
    let action = |v: usize| (255 - v % 9) as u8;
    let steps: Vec<_> = (1..128).map(|v| (v, action(v), v - 1)).collect();
    let line = chart(128, 127, &steps).bytes();
    let list: Vec<u8> = (1..128).rev().map(action).collect();
    for lent in 0..=130 {
        let found = trial.run(&line, &state_of(&[127]), lent, &"a line");
        let wanted = if lent < 127 {
            refusal(54, 127)
        } else {
            way_of(&list)
        };
        assert_eq!(found, wanted, "{lent} bytes lent");
    }
    for v in 0..128 {
        let found = trial.call(&line, &state_of(&[v, 127]), ROOM, &v);
        assert_eq!(found, way_of(&list[127 - v..]), "vertex {v}");
    }
}

/// The largest charts, from a vertex, from all but the end, and from others.
pub fn at_the_limits(way: Way) {
    let mut trial = Trial::of(way);
    let lengths = [127, 127, 1, 8, 4, 0, 0];
    for ((name, made), length) in gen::worst::way_calls().into_iter().zip(lengths) {
        let (answer, _) = trial.measured(&Measured::of(&made.chart), made.state, &name);
        assert_eq!(answer.p, length, "{name}");
    }
    let files = gen::worst::all().into_iter();
    let charts = files.map(|(name, yard)| (name, yard.chart));
    let ways = gen::worst::way_calls().into_iter();
    for (name, chart) in charts.chain(ways.map(|(name, made)| (name, made.chart))) {
        let on = Measured::of(&chart);
        let inner: Vec<usize> = (1..on.chart.vertices).collect();
        trial.measured(&on, state_of(&inner), &name);
        trial.measured(&on, spoilt(state_of(&inner)), &name);
        for vertices in inner.chunks(8) {
            trial.measured(&on, state_of(&vertices[..1]), &name);
            trial.measured(&on, state_of(vertices), &name);
        }
    }
    trial.seen.are(&[0, 54, 55], 300, 1_500);
}
