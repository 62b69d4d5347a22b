//! Checks 31 to 35 against 001's Definition 3.3, loop charts against bounded
//! paths, checks 42 to 45 against 001's bisimulation.
mod common;
use common::{chart, chart_of, files};
use oracle::gen::{self, Rng};
use oracle::plain::{
    check_labelling, check_relation, expression_chart, is_bisimulation, is_layered_loop_witness,
    read_nodes, read_relation, Chart, Subchart,
};
use std::collections::{BTreeMap, BTreeSet};

/// All charts of two vertices and the end with one action, start 1, each step
/// missing or labelled 0, 1 or 2.
fn small_labelled_charts() -> Vec<(Chart, Vec<u8>)> {
    let places: Vec<(usize, usize)> = [1, 2]
        .iter()
        .flat_map(|&from| [0, 1, 2].map(|to| (from, to)))
        .collect();
    (0..4usize.pow(6))
        .map(|code| {
            let (mut steps, mut labels) = (Vec::new(), Vec::new());
            for (i, &(from, to)) in places.iter().enumerate() {
                let digit = code / 4usize.pow(i as u32) % 4;
                if digit > 0 {
                    steps.push((from, 1, to));
                    labels.push(digit as u8 - 1);
                }
            }
            (chart(3, 1, &steps), labels)
        })
        .collect()
}

/// A random chart of few vertices, labelled at random; unlike the generator's
/// it need not have an expression.
fn random_labelled_chart(rng: &mut Rng) -> (Chart, Vec<u8>) {
    let vertices = rng.between(2, 7);
    let mut steps = Vec::new();
    for from in 1..vertices {
        // Mostly connected.
        if from + 1 < vertices {
            steps.push((from, 1, from + 1));
        }
        for _ in 0..rng.below(3) {
            let low = if rng.percent(25) { 0 } else { 1 };
            steps.push((
                from,
                rng.between(1, 2) as u8,
                rng.between(low, vertices - 1),
            ));
        }
    }
    let chart = chart(vertices, 1, &steps);
    let entries = rng.pick(&[20, 40, 60]);
    let labels = chart
        .transitions
        .iter()
        .map(|t| {
            // Going back is rather a branch, as in loops.
            let chance = if t.to > t.from { entries } else { entries / 2 };
            if rng.percent(chance) {
                rng.between(1, 4) as u8
            } else {
                0
            }
        })
        .collect();
    (chart, labels)
}

fn same(chart: &Chart, labels: &[u8]) -> bool {
    let passed = check_labelling(chart, labels);
    let witness = is_layered_loop_witness(chart, labels);
    assert_eq!(passed.is_ok(), witness, "{passed:?}\n{chart:?}\n{labels:?}");
    witness
}

#[test]
fn checks_31_to_35_on_all_small_charts() {
    let passed = small_labelled_charts()
        .iter()
        .filter(|(c, l)| same(c, l))
        .count();
    assert!(passed > 20, "{passed} witnesses");
}

#[test]
fn checks_31_to_35_on_random_charts() {
    let mut rng = Rng::new(1);
    let mut passed = 0;
    let mut with_loops = 0;
    for _ in 0..files(60_000) {
        let (chart, labels) = random_labelled_chart(&mut rng);
        if same(&chart, &labels) {
            passed += 1;
            with_loops += labels.iter().any(|l| *l != 0) as u32;
        }
    }
    assert!(passed > 500 && with_loops > 200, "{passed} {with_loops}");
}

#[test]
fn checks_31_to_35_on_generated_files() {
    let mut rng = Rng::new(2);
    let (mut passed, mut failed) = (0, 0);
    for seed in 0..files(1_500) {
        let yard = gen::accepted(seed);
        let chart = chart_of(&yard);
        if chart.transitions.len() > 1_500 {
            continue;
        }
        assert!(same(&chart, &yard.labelling), "seed {seed}");
        passed += 1;
        for _ in 0..4 {
            if yard.labelling.is_empty() {
                break;
            }
            let mut labels = yard.labelling.clone();
            let at = rng.below(labels.len());
            labels[at] = rng.between(0, 3) as u8;
            failed += !same(&chart, &labels) as u32;
        }
    }
    assert!(passed > 1_000 && failed > 1_000, "{passed} {failed}");
}

/// Whether a path of `length` steps leaves the start, one that steps into
/// `avoided` set aside.
fn has_path(subchart: &Subchart, length: usize, avoided: Option<usize>) -> bool {
    let mut ends = BTreeSet::from([subchart.start]);
    for _ in 0..length {
        ends = ends
            .iter()
            .flat_map(|end| subchart.successors[end].iter().copied())
            .filter(|to| Some(*to) != avoided)
            .collect();
    }
    !ends.is_empty()
}

#[test]
fn loop_charts_by_bounded_paths() {
    // On n vertices a path of n steps repeats a vertex and so can go on for
    // ever, and no endless path lacks a beginning of n steps.
    let mut counts: BTreeMap<Option<u64>, u32> = BTreeMap::new();
    let mut rng = Rng::new(3);
    let random = (0..files(20_000))
        .map(|_| random_labelled_chart(&mut rng))
        .collect::<Vec<_>>();
    for (chart, _) in small_labelled_charts().into_iter().chain(random) {
        for start in 1..chart.vertices {
            let subchart = Subchart::generated(start, |v| {
                chart
                    .leaving(v)
                    .map(|index| chart.transitions[index].to)
                    .collect()
            });
            let n = subchart.successors.len();
            let wanted = if !has_path(&subchart, n, None) {
                Some(1)
            } else if has_path(&subchart, n, Some(start)) {
                Some(2)
            } else if subchart.successors.contains_key(&0) {
                Some(3)
            } else {
                None
            };
            assert_eq!(
                subchart.first_broken(),
                wanted,
                "start {start} of {chart:?}"
            );
            *counts.entry(wanted).or_default() += 1;
        }
    }
    assert!(
        counts.len() == 4 && counts.values().all(|n| *n > 100),
        "{counts:?}"
    );
}

#[test]
fn checks_42_to_45_and_bisimulation() {
    let mut rng = Rng::new(4);
    let (mut passed, mut failed) = (0, 0);
    for seed in 0..files(1_500) {
        let yard = gen::accepted(seed);
        let chart = chart_of(&yard);
        let expression = expression_chart(&read_nodes(&yard.expression).unwrap());
        if chart.transitions.len() * expression.transitions.len() > 100_000 {
            continue;
        }
        for change in 0..6 {
            let mut relation = yard.relation.clone();
            if change > 0 {
                let (u, v) = (rng.below(expression.vertices), rng.below(chart.vertices));
                relation[16 * u + v / 8] ^= 1 << (v % 8);
            }
            let pairs = read_relation(&relation, &expression, &chart).unwrap();
            let checked = check_relation(&expression, &chart, &pairs);
            let holds = is_bisimulation(&expression, &chart, &pairs);
            assert_eq!(checked.is_ok(), holds, "seed {seed}: {checked:?}");
            if holds {
                passed += 1;
            } else {
                failed += 1;
            }
        }
    }
    assert!(passed > 1_000 && failed > 1_000, "{passed} {failed}");
}
