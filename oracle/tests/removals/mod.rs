//! Some removal held against the plain one, and lists of calls over accepted
//! files against the plain set of loops: answers and all standing bytes.
#![allow(dead_code)]
use crate::common::{chart_of, files, g, two_loops, Seen};
use oracle::gen::{self, Rng, Yard};
use oracle::plain::{endless_vertices, Chart, Loop, LoopSet};
use oracle::{plain, Answer};
use std::collections::BTreeMap;
use std::fmt::Display;

/// Takes a chart, labels, a vertex, a level and standing bytes.
pub type Remove = fn(&[u8], &[u8], u64, u64, &mut [u8]) -> Answer;

pub const DONE: Answer = Answer::fine(0, 0, 0);

/// The one answer of the plain call and another one, on one set of standing
/// bytes, which a refusal leaves.
pub fn same_answer(
    (plain, other): (impl Fn(&mut [u8]) -> Answer, impl Fn(&mut [u8]) -> Answer),
    yard: &Yard,
    standing: &mut [u8],
    origin: &dyn Display,
) -> Answer {
    let before = standing.to_vec();
    let mut left = before.clone();
    let (answer, others) = (plain(standing), other(&mut left));
    assert!(
        answer == others && *standing == left[..],
        "{origin}: plain {answer:?}, the other {others:?}\n\
         chart {}\nlabels {}\nbefore {}\nplain {}\nother {}",
        gen::hex(&yard.chart),
        gen::hex(&yard.labelling),
        gen::hex(&before),
        gen::hex(standing),
        gen::hex(&left)
    );
    assert!(
        answer == DONE || standing == before,
        "{origin}: a refusal changed standing bytes"
    );
    answer
}

/// A removal that is tried, and how often it gave each answer: the number,
/// with 52 the r.
pub struct Trial {
    remove: Remove,
    seen: Seen<(u64, u64)>,
}

impl Trial {
    pub fn of(remove: Remove) -> Trial {
        let seen = Seen::default();
        Trial { remove, seen }
    }

    /// Both removals' one answer, on one set of standing bytes.
    pub fn call(
        &mut self,
        yard: &Yard,
        (v, level): (u64, u64),
        standing: &mut [u8],
        origin: &dyn Display,
    ) -> Answer {
        let by = |remove: Remove| {
            move |standing: &mut [u8]| remove(&yard.chart, &yard.labelling, v, level, standing)
        };
        let calls = (by(plain::remove), by(self.remove));
        let origin = format!("{origin}, loop ({v}, {level})");
        let answer = same_answer(calls, yard, standing, &origin);
        let r = if answer.n == 52 { answer.r } else { 0 };
        self.seen.note((answer.n, r));
        answer
    }
}

/// Accepted files from a seed on, but for the few with the most transitions.
pub fn accepted(first: u64, count: u64) -> impl Iterator<Item = (u64, Yard)> {
    let yards = (first..first + count).map(|seed| (seed, gen::accepted(seed)));
    yards.filter(|(_, yard)| yard.labelling.len() <= 2_000)
}

/// The standing bytes where all loops are gone.
pub fn branches(yard: &Yard) -> Vec<u8> {
    let labels = yard.labelling.iter();
    labels.map(|label| (*label == 0) as u8).collect()
}

/// Loops in any order, also such that have to wait, are gone or never were.
pub fn lists_against_the_plain_set(remove: Remove, first: u64) {
    let mut trial = Trial::of(remove);
    for (seed, yard) in accepted(first, files(1_500)) {
        let chart = chart_of(&yard);
        let mut set = LoopSet::all(&chart, &yard.labelling);
        let calls = (3 * set.loops().len() + 3).min(80);
        let mut standing = vec![1; chart.transitions.len()];
        assert_eq!(standing, set.standing());
        for pair in gen::lists::removals(&mut Rng::new(seed), &yard, calls) {
            let answer = trial.call(&yard, pair, &mut standing, &seed);
            let wanted = set.take(pair.0, pair.1);
            assert!(
                answer == wanted && standing == set.standing(),
                "seed {seed}, loop {pair:?}: {answer:?}, the set says {wanted:?}\nfile {}",
                gen::hex(&yard.file())
            );
        }
    }
    trial.seen.are(&[(0, 0), (51, 0), (52, 2)], 300, 20_000);
}

/// The branches are left, and no endless path.
pub fn orders_of_all_loops(remove: Remove, first: u64) {
    let mut trial = Trial::of(remove);
    let (mut orders, mut waits) = (0, 0);
    for (seed, yard) in accepted(first, files(800)) {
        let chart = chart_of(&yard);
        for order in 0..3 {
            let mut rng = Rng::new(10 * seed + order);
            let mut set = LoopSet::all(&chart, &yard.labelling);
            let mut standing = vec![1; chart.transitions.len()];
            while !set.loops().is_empty() {
                let free = set.free();
                assert!(!free.is_empty(), "seed {seed}: no order goes on");
                waits += (free.len() < set.loops().len()) as u32;
                let (v, level) = rng.pick(&free);
                let pair = (v as u64, level as u64);
                assert_eq!(set.take(pair.0, pair.1), DONE);
                assert_eq!(trial.call(&yard, pair, &mut standing, &seed), DONE);
            }
            assert_eq!(standing, branches(&yard), "seed {seed}");
            let left = (0..chart.vertices).map(|v| {
                let standing = chart.leaving(v).filter(|index| standing[*index] == 1);
                (
                    v,
                    standing.map(|index| chart.transitions[index].to).collect(),
                )
            });
            assert!(endless_vertices(&left.collect()).is_empty(), "seed {seed}");
            orders += 1;
        }
    }
    assert!(
        orders > 1_000 && waits > 200,
        "{orders} orders, {waits} waits"
    );
}

/// Damage to chart and labels now and then, and standing bytes of all kinds.
pub fn damage(rng: &mut Rng, yard: &mut Yard) -> Vec<u8> {
    if rng.percent(10) {
        let at = rng.below(yard.chart.len());
        yard.chart[at] = rng.word() as u8;
    }
    if rng.percent(5) {
        yard.labelling.push(1);
    }
    if rng.percent(40) && !yard.labelling.is_empty() {
        for _ in 0..rng.between(1, 4) {
            let at = rng.below(yard.labelling.len());
            yard.labelling[at] = rng.below(4) as u8;
        }
    }
    let mut standing = vec![1; yard.labelling.len()];
    if rng.percent(60) {
        let gone = rng.pick(&[5, 20, 50]);
        for byte in &mut standing {
            *byte = !rng.percent(gone) as u8;
        }
    }
    match rng.below(30) {
        0 if !standing.is_empty() => {
            let at = rng.below(standing.len());
            standing[at] = rng.pick(&[2, 3, 128, 255]);
        }
        1 => standing.push(1),
        2 => drop(standing.pop()),
        _ => {}
    }
    standing
}

/// The loops of a labelled chart; none where chart or labels are refused.
pub fn loops_of(yard: &Yard) -> Vec<Loop> {
    match Chart::read(&yard.chart) {
        Ok(chart) if chart.transitions.len() == yard.labelling.len() => {
            plain::loops(&chart, &yard.labelling).into_iter().collect()
        }
        _ => vec![],
    }
}

/// Damaged charts, labels and standing bytes, loops or not.
pub fn any_bytes(remove: Remove, first: u64) {
    let mut trial = Trial::of(remove);
    for seed in first..first + files(8_000) {
        let mut rng = Rng::new(seed);
        let mut yard = gen::accepted(first + (seed - first) / 4);
        if yard.labelling.len() > 1_000 {
            continue;
        }
        let mut standing = damage(&mut rng, &mut yard);
        let loops = loops_of(&yard);
        for _ in 0..4 {
            let pair = if loops.is_empty() {
                (rng.below(5) as u64, rng.below(3) as u64)
            } else {
                let (v, level) = rng.pick(&loops);
                (v as u64, level as u64)
            };
            trial.call(&yard, pair, &mut standing, &seed);
        }
    }
    let all = [20, 21, 30, 50, 51].map(|n| (n, 0));
    let all = [&[(0, 0)], &all[..], &[(52, 1), (52, 2), (52, 3)]].concat();
    trial.seen.are(&all, 20, 20_000);
}

/// A labelled chart; all else plays no part.
pub fn labelled(chart: &Chart, labels: &[u8]) -> Yard {
    Yard {
        chart: chart.bytes(),
        labelling: labels.to_vec(),
        ..g()
    }
}

/// Each labelling of document 01's chart of two loops with 0 to 2, and each part
/// of it that stands.
pub fn small_charts() -> impl Iterator<Item = (Yard, [u8; 4])> {
    let labels = (0..81).map(|label| [1, 3, 9, 27].map(|place| label / place % 3));
    labels.flat_map(|labels| {
        let parts = (0..16).map(|stands| [1, 2, 4, 8].map(|place| stands / place % 2));
        parts.map(move |standing| (labelled(&two_loops(), &labels), standing))
    })
}

/// Document 01's list.
pub fn loop_inside_a_loop(remove: Remove) {
    let mut trial = Trial::of(remove);
    let yard = labelled(&two_loops(), &[2, 0, 1, 0]);
    let mut standing = [1; 4];
    for (pair, answer, left) in [
        ((1, 2), Answer::new(52, 1, 2, 2), [1, 1, 1, 1]),
        ((2, 1), DONE, [1, 1, 0, 1]),
        ((1, 2), DONE, [0, 1, 0, 1]),
        ((1, 2), Answer::new(51, 1, 2, 0), [0, 1, 0, 1]),
    ] {
        assert_eq!(trial.call(&yard, pair, &mut standing, &"the list"), answer);
        assert_eq!(standing, left);
    }
}

/// Each part of each labelling, and each pair up to 3.
pub fn all_of_a_small_chart(remove: Remove) {
    let mut trial = Trial::of(remove);
    for (yard, standing) in small_charts() {
        for pair in 0..16 {
            let mut standing = standing;
            let pair = (pair / 4, pair % 4);
            trial.call(&yard, pair, &mut standing, &"a small chart");
        }
    }
    let all = [(0, 0), (51, 0), (52, 1), (52, 2), (52, 3)];
    trial.seen.are(&all, 20, 81 * 16 * 16);
}

/// The entries of each loop, by level and then vertex: whatever is inside a body
/// is of lower level.
pub fn entries_by_level(yard: &Yard) -> BTreeMap<(u8, u8), Vec<usize>> {
    let mut entries: BTreeMap<(u8, u8), Vec<usize>> = BTreeMap::new();
    for (index, &level) in yard.labelling.iter().enumerate() {
        if level != 0 {
            let loop_at = (level, yard.chart[4 + 4 * index]);
            entries.entry(loop_at).or_default().push(index);
        }
    }
    entries
}

/// The worst files lose all their loops, after some calls in any order.
pub fn worst_files(remove: Remove) {
    for (name, yard) in gen::worst::all() {
        let mut trial = Trial::of(remove);
        let count = yard.labelling.len();
        for pair in gen::lists::removals(&mut Rng::new(9), &yard, files(30) as usize) {
            trial.call(&yard, pair, &mut vec![1; count], &name);
        }
        let mut standing = vec![1; count];
        let mut wanted = standing.clone();
        for ((level, v), indices) in entries_by_level(&yard) {
            let pair = (v as u64, level as u64);
            let answer = remove(&yard.chart, &yard.labelling, pair.0, pair.1, &mut standing);
            for index in indices {
                wanted[index] = 0;
            }
            assert!(answer == DONE && standing == wanted, "{name}: {pair:?}");
        }
        assert_eq!(standing, branches(&yard), "{name}");
    }
}

/// Removals from the largest charts.
pub fn at_the_limits(remove: Remove) {
    let mut trial = Trial::of(remove);
    for (name, mut removal) in gen::worst::removals() {
        assert_eq!(removal.chart[..4], [128, 127, 0, 32], "{name}");
        let pair = (removal.vertex as u64, removal.level as u64);
        let yard = Yard {
            chart: removal.chart,
            labelling: removal.labels,
            ..g()
        };
        trial.call(&yard, pair, &mut removal.standing, &name);
    }
    trial
        .seen
        .are(&[(0, 0), (51, 0), (52, 1), (52, 2), (52, 3)], 1, 8);
}
