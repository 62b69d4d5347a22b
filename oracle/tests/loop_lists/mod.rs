//! Several loops out together, held against the plain call, against the single
//! removals of the same loops in all orders, against the plain set of loops over
//! accepted files, and against the definition by all walks of small charts.
#![allow(dead_code)]
use crate::common::{chart, chart_of, files, Seen};
use crate::removals::{
    accepted, branches, damage, entries_by_level, labelled, loops_of, same_answer, small_charts,
    Remove, DONE,
};
use oracle::gen::{self, Rng, Yard};
use oracle::plain::{Chart, Loop, LoopSet};
use oracle::{fast, plain, Answer};
use std::collections::BTreeSet;
use std::fmt::Display;

/// The call, which takes a chart, labels, a list of loops and standing bytes, and
/// the removal of a single loop beside it.
#[derive(Clone, Copy)]
pub struct Calls {
    pub together: fn(&[u8], &[u8], &[u8], &mut [u8]) -> Answer,
    pub remove: Remove,
}

pub const PLAIN: Calls = Calls {
    together: plain::remove_together,
    remove: plain::remove,
};

pub const FAST: Calls = Calls {
    together: fast::remove_together,
    remove: fast::remove,
};

/// A loop as a list has it: v, then level.
type Pair = [u8; 2];

fn pairs(list: &[u8]) -> &[Pair] {
    list.as_chunks().0
}

fn pair_of(&(v, level): &Loop) -> Pair {
    [v as u8, level]
}

/// Whether a list has an odd length, is too long, has a loop twice.
pub fn malformed(list: &[u8]) -> [bool; 3] {
    let pairs = pairs(list);
    let twice = (1..pairs.len()).any(|place| pairs[..place].contains(&pairs[place]));
    [list.len() % 2 == 1, list.len() > 128, twice]
}

/// An answer's number and what it is about: for 52 its r; for 56 its cause, 1 to 3
/// in the order above, 0 for several; for a list that is done 0 where it is empty,
/// 1 for one loop, 2 for several of one start, 3 for several starts.
fn kind(answer: Answer, list: &[u8]) -> (u64, u64) {
    let what = match answer.n {
        0 => {
            let starts: BTreeSet<u8> = pairs(list).iter().map(|[v, _]| *v).collect();
            match (list.len() / 2, starts.len()) {
                (0 | 1, starts) => starts as u64,
                (_, 1) => 2,
                _ => 3,
            }
        }
        52 => answer.r,
        56 => match malformed(list) {
            [true, false, false] => 1,
            [false, true, false] => 2,
            [false, false, true] => 3,
            _ => 0,
        },
        _ => 0,
    };
    (answer.n, what)
}

/// The kinds of lists that are done, of 52 and of 56.
const ACCEPTED: [(u64, u64); 4] = [(0, 0), (0, 1), (0, 2), (0, 3)];
const BROKEN: [(u64, u64); 3] = [(52, 1), (52, 2), (52, 3)];
const MALFORMED: [(u64, u64); 4] = [(56, 0), (56, 1), (56, 2), (56, 3)];

/// All orders of up to five; of more, some.
fn orders(pairs: &[Pair]) -> Vec<Vec<Pair>> {
    if pairs.len() > 5 {
        let mut rng = Rng::new(pairs.len() as u64);
        let mut some = vec![pairs.to_vec(), pairs.iter().rev().copied().collect()];
        for _ in 0..4 {
            let mut order = pairs.to_vec();
            rng.shuffle(&mut order);
            some.push(order);
        }
        return some;
    }
    let with = |order: Vec<Pair>, pair: Pair| {
        let places = 0..=order.len();
        places.map(move |at| [&order[..at], &[pair], &order[at..]].concat())
    };
    pairs.iter().fold(vec![Vec::new()], |orders, &pair| {
        let orders = orders.into_iter();
        orders.flat_map(|order| with(order, pair)).collect()
    })
}

/// A call that is tried, and how often it gave each kind of answer.
pub struct Trial {
    calls: Calls,
    seen: Seen<(u64, u64)>,
    /// How many orders of more than one loop were gone through.
    orders: usize,
}

impl Trial {
    pub fn of(calls: Calls) -> Trial {
        Trial {
            calls,
            seen: Seen::default(),
            orders: 0,
        }
    }

    /// Both calls' one answer on one set of standing bytes; where the list is
    /// accepted, also what its loops leave that are taken out singly.
    pub fn call(
        &mut self,
        yard: &Yard,
        list: &[u8],
        standing: &mut [u8],
        origin: &dyn Display,
    ) -> Answer {
        let before = standing.to_vec();
        let by = |calls: Calls| {
            move |standing: &mut [u8]| {
                (calls.together)(&yard.chart, &yard.labelling, list, standing)
            }
        };
        let both = (by(PLAIN), by(self.calls));
        let origin = format!("{origin}, loops {}", gen::hex(list));
        let answer = same_answer(both, yard, standing, &origin);
        if answer == DONE {
            self.singly(yard, pairs(list), &before, standing, &origin);
        }
        self.seen.note(kind(answer, list));
        answer
    }

    /// In each order none is refused, and the same bytes are left.
    fn singly(
        &mut self,
        yard: &Yard,
        pairs: &[Pair],
        before: &[u8],
        left: &[u8],
        origin: &dyn Display,
    ) {
        let orders = orders(pairs);
        for order in &orders {
            let mut standing = before.to_vec();
            for &[v, level] in order {
                let (v, level) = (v as u64, level as u64);
                let remove = self.calls.remove;
                let answer = remove(&yard.chart, &yard.labelling, v, level, &mut standing);
                assert_eq!(answer, DONE, "{origin}: ({v}, {level}) in {order:?}");
            }
            assert!(
                standing == left,
                "{origin}: in order {order:?}\nsingly {}\ntogether {}",
                gen::hex(&standing),
                gen::hex(left)
            );
        }
        if pairs.len() > 1 {
            self.orders += orders.len();
        }
    }
}

/// Different pairs, with others after them to so many.
fn filled(rng: &mut Rng, mut pairs: Vec<Pair>, count: usize) -> Vec<Pair> {
    while pairs.len() < count {
        let other = [rng.word() as u8, rng.word() as u8];
        if !pairs.contains(&other) {
            pairs.push(other);
        }
    }
    pairs
}

/// Some of these loops in any order, seldom with another pair among them; now and
/// then a list that is refused 56, or nearly.
fn some_list(rng: &mut Rng, loops: &[Loop]) -> Vec<u8> {
    let mut pairs: Vec<Pair> = loops.iter().map(pair_of).collect();
    rng.shuffle(&mut pairs);
    let most = rng.pick(&[1, 3, 5, 64]);
    pairs.truncate(rng.between(1, most));
    if rng.percent(8) {
        let other = [rng.below(7) as u8, rng.below(5) as u8];
        pairs.insert(rng.below(pairs.len() + 1), other);
    }
    match rng.below(24) {
        0 => pairs.clear(),
        1 if !pairs.is_empty() => {
            let again = rng.pick(&pairs);
            pairs.insert(rng.below(pairs.len() + 1), again);
        }
        2 => pairs = filled(rng, pairs, 64),
        3 => {
            let count = rng.pick(&[65, 65, 66, 100, 128, 300]);
            pairs = filled(rng, pairs, count);
        }
        _ => {}
    }
    let mut list = pairs.concat();
    if rng.percent(5) {
        list.push(rng.word() as u8);
    }
    list
}

/// What the plain set of loops answers: the refusal that the first loop would
/// have that has one, each over the whole set; or all of them leave the set.
fn take_all(set: &mut LoopSet, list: &[u8]) -> Answer {
    if malformed(list) != [false; 3] {
        return Answer::new(56, 0, 0, 0);
    }
    let take = |set: &mut LoopSet, [v, level]: Pair| set.take(v as u64, level as u64);
    for &pair in pairs(list) {
        let alone = take(&mut set.clone(), pair);
        if alone.is_refusal() {
            return alone;
        }
    }
    for &pair in pairs(list) {
        assert_eq!(take(set, pair), DONE);
    }
    DONE
}

/// Over accepted files, from standing bytes of a plain set on: mostly loops with
/// none inside, but also such that have to wait or are gone. 57 never comes.
pub fn lists_against_the_plain_set(calls: Calls, first: u64) {
    let mut trial = Trial::of(calls);
    for (seed, yard) in accepted(first, files(1_500)) {
        let mut rng = Rng::new(seed);
        let chart = chart_of(&yard);
        let mut set = LoopSet::all(&chart, &yard.labelling);
        let all = set.loops();
        let mut standing = vec![1; chart.transitions.len()];
        for _ in 0..(all.len() + 3).min(12) {
            let loops = match rng.below(6) {
                0 => all.clone(),
                1 => set.loops(),
                _ => set.free(),
            };
            let list = some_list(&mut rng, &loops);
            let answer = trial.call(&yard, &list, &mut standing, &seed);
            let wanted = take_all(&mut set, &list);
            assert!(
                answer == wanted && standing == set.standing(),
                "seed {seed}, loops {}: {answer:?}, the set says {wanted:?}\nfile {}",
                gen::hex(&list),
                gen::hex(&yard.file())
            );
        }
    }
    let all = [&ACCEPTED[..], &[(51, 0), (52, 2)], &MALFORMED].concat();
    trial.seen.are(&all, 20, 8_000);
    assert!(trial.orders >= 10_000, "{} orders", trial.orders);
}

/// All loops of an accepted file in lists of those that have none inside, until
/// the branches are left.
pub fn all_loops_by_lists(calls: Calls, first: u64) {
    let mut trial = Trial::of(calls);
    let (mut again, mut longest) = (0, 0);
    for (seed, yard) in accepted(first, files(800)) {
        let mut rng = Rng::new(seed);
        let chart = chart_of(&yard);
        let mut set = LoopSet::all(&chart, &yard.labelling);
        let mut standing = vec![1; chart.transitions.len()];
        while !set.loops().is_empty() {
            let mut free: Vec<Pair> = set.free().iter().map(pair_of).collect();
            assert!(!free.is_empty(), "seed {seed}: no list goes on");
            rng.shuffle(&mut free);
            if rng.percent(20) {
                free.truncate(rng.between(1, free.len()));
            }
            free.truncate(64);
            longest = longest.max(free.len());
            let list = free.concat();
            assert_eq!(take_all(&mut set, &list), DONE);
            assert_eq!(trial.call(&yard, &list, &mut standing, &seed), DONE);
            again += !set.loops().is_empty() as u32;
        }
        assert_eq!(standing, branches(&yard), "seed {seed}");
    }
    trial.seen.are(&ACCEPTED[1..], 100, 1_000);
    assert!(again >= 200 && longest == 64, "{again} {longest}");
}

/// All walks from a vertex by some entries and then standing steps, each until
/// it comes back or has as many steps as there are vertices.
struct Walks<'a> {
    chart: &'a Chart,
    standing: &'a [u8],
    start: usize,
    /// Without the start.
    met: BTreeSet<usize>,
    some_return: bool,
    /// Some walk meets a vertex twice before it comes back.
    some_endless: bool,
}

impl Walks<'_> {
    fn on(&mut self, index: usize, steps: usize) {
        let to = self.chart.transitions[index].to;
        if to == self.start {
            self.some_return = true;
            return;
        }
        self.met.insert(to);
        if steps == self.chart.vertices {
            self.some_endless = true;
            return;
        }
        for next in self.chart.leaving(to) {
            if self.standing[next] == 1 {
                self.on(next, steps + 1);
            }
        }
    }

    fn broken(&self) -> u64 {
        if !self.some_return && !self.some_endless {
            1
        } else if self.some_endless {
            2
        } else if self.met.contains(&0) {
            3
        } else {
            0
        }
    }
}

/// The entries of a loop that stand.
fn entries(chart: &Chart, labels: &[u8], standing: &[u8], [v, level]: Pair) -> BTreeSet<usize> {
    let steps = 0..chart.transitions.len();
    let of_v = steps.filter(|&index| chart.transitions[index].from == v as usize);
    of_v.filter(|&index| level != 0 && labels[index] == level && standing[index] == 1)
        .collect()
}

/// What a call answers over a small chart, by the definition.
fn by_walks(yard: &Yard, list: &[u8], standing: &[u8]) -> Answer {
    if malformed(list) != [false; 3] {
        return Answer::new(56, 0, 0, 0);
    }
    let chart = chart_of(yard);
    let (mut all, mut gone) = (Vec::new(), BTreeSet::new());
    for &[v, level] in pairs(list) {
        let (p, q) = (v as u64, level as u64);
        let entries = entries(&chart, &yard.labelling, standing, [v, level]);
        if entries.is_empty() {
            return Answer::new(51, p, q, 0);
        }
        let mut walks = Walks {
            chart: &chart,
            standing,
            start: v as usize,
            met: BTreeSet::new(),
            some_return: false,
            some_endless: false,
        };
        for &index in &entries {
            walks.on(index, 1);
        }
        if walks.broken() != 0 {
            return Answer::new(52, p, q, walks.broken());
        }
        assert!(gone.is_disjoint(&entries));
        gone.extend(entries);
        all.push(walks);
    }
    for (place, one) in all.iter().enumerate() {
        if all.iter().any(|other| other.met.contains(&one.start)) {
            return Answer::new(57, place as u64, 0, 0);
        }
    }
    DONE
}

/// One to three rings of a few vertices and some steps more, seldom to the end;
/// any labels.
fn rings(rng: &mut Rng) -> Yard {
    let mut steps = Vec::new();
    let mut top = 0;
    for _ in 0..rng.between(1, 3) {
        let (first, length) = (top + 1, rng.between(1, 3));
        steps.extend((0..length).map(|i| (first + i, 1, first + (i + 1) % length)));
        top += length;
    }
    for _ in 0..rng.below(5) {
        let lowest = if rng.percent(20) { 0 } else { 1 };
        let from = rng.between(1, top);
        steps.push((from, rng.between(1, 3) as u8, rng.between(lowest, top)));
    }
    let chart = chart(top + 1, 1, &steps);
    let branches = rng.pick(&[0, 20, 50]);
    let label = |_| match rng.percent(branches) {
        true => 0,
        false => rng.between(1, 3) as u8,
    };
    let labels: Vec<u8> = chart.transitions.iter().map(label).collect();
    labelled(&chart, &labels)
}

/// Small charts with any labels, which mostly don't pass, and any part standing:
/// mostly loops that could each be taken out alone.
pub fn any_labels(calls: Calls, first: u64) {
    let mut trial = Trial::of(calls);
    for seed in first..first + files(12_000) {
        let mut rng = Rng::new(seed);
        let yard = rings(&mut rng);
        let mut standing = vec![1; yard.labelling.len()];
        let gone = rng.pick(&[0, 0, 10, 30]);
        for byte in &mut standing {
            *byte = !rng.percent(gone) as u8;
        }
        let mut loops = loops_of(&yard);
        if rng.percent(80) {
            loops.retain(|&(v, level)| {
                let mut left = standing.clone();
                let (v, level) = (v as u64, level as u64);
                plain::remove(&yard.chart, &yard.labelling, v, level, &mut left) == DONE
            });
        }
        for _ in 0..2 {
            let list = some_list(&mut rng, &loops);
            let wanted = by_walks(&yard, &list, &standing);
            let answer = trial.call(&yard, &list, &mut standing.clone(), &seed);
            assert_eq!(answer, wanted, "seed {seed}");
        }
    }
    let all = [&ACCEPTED[..], &[(51, 0)], &BROKEN, &MALFORMED, &[(57, 0)]].concat();
    trial.seen.are(&all, 50, 24_000);
    assert!(trial.orders >= 8_000, "{} orders", trial.orders);
}

/// Damaged charts, labels and standing bytes, loops or not.
pub fn any_bytes(calls: Calls, first: u64) {
    let mut trial = Trial::of(calls);
    for seed in first..first + files(8_000) {
        let mut rng = Rng::new(seed);
        let mut yard = if rng.percent(50) {
            rings(&mut rng)
        } else {
            gen::accepted(first + (seed - first) / 4)
        };
        if yard.labelling.len() > 1_000 {
            continue;
        }
        let mut standing = damage(&mut rng, &mut yard);
        let loops = loops_of(&yard);
        for _ in 0..2 {
            let list = some_list(&mut rng, &loops);
            trial.call(&yard, &list, &mut standing, &seed);
        }
    }
    let others = [20, 21, 30, 50, 51].map(|n| (n, 0));
    let all = [&ACCEPTED[..], &others, &BROKEN, &MALFORMED, &[(57, 0)]].concat();
    trial.seen.are(&all, 50, 15_000);
}

/// Each part of each labelling of document 01's chart of two loops, and each list
/// of up to two loops.
pub fn all_of_a_small_chart(calls: Calls) {
    let loops = [[1, 1], [1, 2], [2, 1], [2, 2]];
    let mut lists = vec![Vec::new()];
    for one in loops {
        lists.push(one.to_vec());
        lists.extend(loops.map(|other| [one, other].concat()));
    }
    let mut trial = Trial::of(calls);
    for (yard, standing) in small_charts() {
        for list in &lists {
            let wanted = by_walks(&yard, list, &standing);
            let mut standing = standing;
            let answer = trial.call(&yard, list, &mut standing, &"a small chart");
            assert_eq!(answer, wanted, "{yard:?} {list:?}");
        }
    }
    let last = [(56, 3), (57, 0)];
    let all = [&ACCEPTED[..3], &[(51, 0)], &BROKEN, &last].concat();
    trial.seen.are(&all, 30, 81 * 16 * 21);
}

/// A chart with each label as its transition's action, in which vertices 1 to 3
/// are a ring, vertex 4 has two loops by vertex 5, one of them also by itself,
/// vertex 6 goes round by itself and to the end, and vertex 7 leads to vertex 6.
fn by_hand() -> Yard {
    let ring = [(1, 1, 2), (2, 1, 3), (3, 1, 1)];
    let two = [(4, 1, 5), (4, 2, 5), (4, 2, 4), (5, 1, 4)];
    let others = [(6, 1, 6), (6, 2, 0), (7, 1, 6), (7, 2, 7)];
    let chart = chart(8, 1, &[&ring[..], &two, &others].concat());
    let labels: Vec<u8> = chart.transitions.iter().map(|t| t.action).collect();
    labelled(&chart, &labels)
}

/// Single lists, with what they answer and which transitions they take.
pub fn single_lists(calls: Calls) {
    let yard = by_hand();
    let mut trial = Trial::of(calls);
    let refused = Answer::new;
    let cases: [(&[u8], Answer, &[usize]); 22] = [
        (&[], DONE, &[]),
        (&[1, 1], DONE, &[0]),
        (&[3, 1], DONE, &[2]),
        // One start is no 57, whatever the bodies share.
        (&[4, 1, 4, 2], DONE, &[3, 4, 5]),
        (&[4, 2, 4, 1], DONE, &[3, 4, 5]),
        (&[6, 1, 4, 2, 2, 1, 7, 2], DONE, &[1, 4, 5, 7, 10]),
        // Any two of the ring start inside each other.
        (&[1, 1, 2, 1], refused(57, 0, 0, 0), &[]),
        (&[2, 1, 1, 1], refused(57, 0, 0, 0), &[]),
        (&[6, 1, 4, 2, 3, 1, 4, 1, 1, 1], refused(57, 2, 0, 0), &[]),
        (&[5, 1, 4, 1], refused(52, 5, 1, 2), &[]),
        (&[4, 1, 5, 1], refused(52, 5, 1, 2), &[]),
        // 51 and 52 by the list's order, and before 57.
        (&[1, 1, 2, 1, 3, 2], refused(51, 3, 2, 0), &[]),
        (&[1, 1, 2, 1, 5, 1], refused(52, 5, 1, 2), &[]),
        (&[7, 1, 6, 3], refused(52, 7, 1, 2), &[]),
        (&[6, 3, 7, 1], refused(51, 6, 3, 0), &[]),
        (&[6, 2, 7, 1], refused(52, 6, 2, 1), &[]),
        // Pairs that can name no loop.
        (&[0, 0], refused(51, 0, 0, 0), &[]),
        (&[1, 1, 1, 0], refused(51, 1, 0, 0), &[]),
        (&[1, 1, 255, 255], refused(51, 255, 255, 0), &[]),
        // 56 whatever the numbers are.
        (&[1], refused(56, 0, 0, 0), &[]),
        (&[255, 255, 0, 0, 255, 255], refused(56, 0, 0, 0), &[]),
        (&[5, 1, 1, 1, 5, 1], refused(56, 0, 0, 0), &[]),
    ];
    for (list, answer, gone) in cases {
        let mut standing = vec![1; yard.labelling.len()];
        let mut wanted = standing.clone();
        gone.iter().for_each(|&index| wanted[index] = 0);
        assert_eq!(trial.call(&yard, list, &mut standing, &"by hand"), answer);
        assert_eq!(standing, wanted, "{list:?}");
    }
}

/// What is gone when the call begins is in no body.
pub fn over_what_stands_first(calls: Calls) {
    let yard = by_hand();
    let mut trial = Trial::of(calls);
    let mut standing = vec![1; yard.labelling.len()];
    let refused = Answer::new;
    for (list, answer) in [
        (&[4, 2, 1, 1][..], DONE),
        (&[4, 2, 6, 1], refused(51, 4, 2, 0)),
        (&[6, 1, 2, 1], refused(52, 2, 1, 1)),
        // With the step from vertex 4 to itself gone, vertex 5 has a loop too.
        (&[4, 1, 5, 1], refused(57, 0, 0, 0)),
        (&[6, 1, 5, 1], DONE),
        (&[], DONE),
        (&[4, 1], refused(52, 4, 1, 1)),
    ] {
        let before = standing.clone();
        let given = trial.call(&yard, list, &mut standing, &"over what stands");
        assert_eq!(given, answer, "{list:?}");
        assert_eq!(standing == before, list.is_empty() || answer != DONE);
    }
}

/// Where several refusals have a cause, the first in their order, whichever way
/// the list is malformed.
pub fn order_of_refusals(calls: Calls) {
    let mut trial = Trial::of(calls);
    let mut answer = |chart: &[u8], labels: &[u8], list: &[u8], standing: &[u8]| {
        let yard = Yard {
            chart: chart.to_vec(),
            labelling: labels.to_vec(),
            ..by_hand()
        };
        trial.call(&yard, list, &mut standing.to_vec(), &"all wrong")
    };
    let refused = |n, p| Answer::new(n, p, 0, 0);
    let Yard {
        chart,
        labelling: labels,
        ..
    } = by_hand();
    let (mut no_chart, mut unordered) = (chart.clone(), chart.clone());
    no_chart[0] = 129;
    unordered[8] = 0;
    let short = &labels[1..];
    let standing = vec![1; labels.len()];
    let mut wrong = standing.clone();
    wrong[3] = 2;
    let too_long: Vec<u8> = (0..65).flat_map(|level| [9, level]).collect();
    for list in [&[9][..], &[9, 9, 9, 9], &too_long] {
        assert_eq!(answer(&no_chart, short, list, &wrong), refused(20, 0));
        assert_eq!(answer(&unordered, short, list, &wrong), refused(21, 1));
        assert_eq!(answer(&chart, short, list, &wrong), refused(30, 10));
        assert_eq!(answer(&chart, &labels, list, &wrong), refused(50, 0));
        assert_eq!(answer(&chart, &labels, list, &standing), refused(56, 0));
    }
    for list in [&[][..], &[9, 9], &[1, 1, 2, 1]] {
        assert_eq!(answer(&no_chart, &labels, list, &standing), refused(20, 0));
        assert_eq!(answer(&chart, short, list, &standing), refused(30, 10));
        assert_eq!(answer(&chart, &labels, list, &wrong), refused(50, 0));
    }
}

/// Vertices that each go round by themselves, and lists of each length.
pub fn all_lengths(calls: Calls) {
    let mut trial = Trial::of(calls);
    let steps: Vec<_> = (1..128).map(|v| (v, 1, v)).collect();
    let yard = labelled(&chart(128, 1, &steps), &[7; 127]);
    let all: Vec<u8> = (1..128).rev().flat_map(|v| [v, 7]).collect();
    for length in 0..=all.len() {
        let list = &all[..length];
        let mut standing = vec![1; 127];
        let answer = trial.call(&yard, list, &mut standing, &"lengths");
        if length % 2 == 1 || length > 128 {
            assert_eq!(answer, Answer::new(56, 0, 0, 0), "{length}");
        } else {
            assert_eq!(answer, DONE, "{length}");
            let left = 127 - length / 2;
            assert!(standing[..left].iter().all(|byte| *byte == 1));
            assert!(standing[left..].iter().all(|byte| *byte == 0));
        }
    }
    // Each place at which a loop of 64 is there a second time.
    for place in 0..63 {
        let mut list = all[..128].to_vec();
        list[126..].copy_from_slice(&all[2 * place..2 * place + 2]);
        trial.call(&yard, &list, &mut [1; 127], &"twice");
    }
    let all = [&[(0, 0), (0, 1), (0, 3)], &MALFORMED[..]].concat();
    trial.seen.are(&all, 1, 318);
}

/// Lists of 64 loops from the largest charts.
pub fn at_the_limits(calls: Calls) {
    let mut trial = Trial::of(calls);
    for (name, mut made) in gen::worst::together_calls() {
        if name != "done small" {
            assert_eq!(made.chart[..4], [128, 127, 0, 32], "{name}");
            assert_eq!(made.loops.len(), 128, "{name}");
        }
        let yard = Yard {
            chart: made.chart,
            labelling: made.labels,
            ..by_hand()
        };
        let wanted = match name {
            "refused 57 last" => Answer::new(57, 62, 0, 0),
            "refused 57 ring" => Answer::new(57, 0, 0, 0),
            _ => DONE,
        };
        let answer = trial.call(&yard, &made.loops, &mut made.standing, &name);
        assert_eq!(answer, wanted, "{name}");
    }
    trial.seen.are(&[(0, 2), (0, 3), (57, 0)], 2, 7);
}

/// The worst files lose all their loops, by lists of one level.
pub fn worst_files(calls: Calls) {
    for (name, yard) in gen::worst::all() {
        let all: Vec<_> = entries_by_level(&yard).into_iter().collect();
        let mut standing = vec![1; yard.labelling.len()];
        let mut wanted = standing.clone();
        for of_level in all.chunk_by(|((one, _), _), ((other, _), _)| one == other) {
            for some in of_level.chunks(64) {
                let list: Vec<u8> = some.iter().flat_map(|&((l, v), _)| [v, l]).collect();
                let indices = some.iter().flat_map(|(_, indices)| indices);
                indices.for_each(|&index| wanted[index] = 0);
                let answer = (calls.together)(&yard.chart, &yard.labelling, &list, &mut standing);
                assert!(answer == DONE && standing == wanted, "{name}: {list:?}");
            }
        }
        assert_eq!(standing, branches(&yard), "{name}");
    }
}
