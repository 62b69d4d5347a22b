//! Charts with the expression's behaviour: its own, collapsed, unfolded.
use super::rng::Rng;
use crate::plain::{Chart, Transition};
use std::collections::BTreeMap;

pub const MOST_VERTICES: usize = 128;
pub const MOST_TRANSITIONS: usize = 8192;

/// A chart of these steps, listed in order and once.
pub fn chart_of(vertices: usize, start: usize, mut transitions: Vec<Transition>) -> Chart {
    transitions.sort();
    transitions.dedup();
    Chart {
        vertices,
        start,
        transitions,
    }
}

/// The part reached from the start. With it, for each vertex its new number;
/// the end keeps 0.
pub fn reached_part(chart: &Chart) -> (Chart, Vec<Option<usize>>) {
    let reached = chart.reached(chart.start, |_| true);
    let mut count = 1;
    let new: Vec<Option<usize>> = (0..chart.vertices)
        .map(|v| {
            if v == 0 {
                Some(0)
            } else if reached[v] {
                count += 1;
                Some(count - 1)
            } else {
                None
            }
        })
        .collect();
    let transitions = chart.transitions.iter().filter_map(|t| {
        Some(Transition {
            from: new[t.from]?,
            action: t.action,
            to: new[t.to]?,
        })
    });
    let start = new[chart.start].expect("the start is reached");
    (chart_of(count, start, transitions.collect()), new)
}

/// A random renumbering; the end keeps 0.
pub fn shuffled(rng: &mut Rng, vertices: usize) -> Vec<usize> {
    let mut new: Vec<usize> = (0..vertices).collect();
    rng.shuffle(&mut new[1..]);
    new
}

pub fn renamed(chart: &Chart, new: &[usize]) -> Chart {
    let transitions = chart.transitions.iter().map(|t| Transition {
        from: new[t.from],
        action: t.action,
        to: new[t.to],
    });
    chart_of(chart.vertices, new[chart.start], transitions.collect())
}

/// Bisimilarity on two charts put side by side: vertices are bisimilar exactly
/// where their classes are equal. Classes split until they hold.
pub fn bisimilarity_classes(one: &Chart, other: &Chart) -> (Vec<usize>, Vec<usize>) {
    let charts = [one, other];
    let mut classes: Vec<Vec<usize>> = charts
        .iter()
        .map(|c| (0..c.vertices).map(|v| (v != 0) as usize).collect())
        .collect();
    let mut count = 0;
    loop {
        let mut known: BTreeMap<(usize, Vec<(u8, usize)>), usize> = BTreeMap::new();
        let mut split = Vec::new();
        for (side, chart) in charts.iter().enumerate() {
            let mut of_side = Vec::new();
            for v in 0..chart.vertices {
                let mut steps: Vec<(u8, usize)> = chart.transitions[chart.leaving(v)]
                    .iter()
                    .map(|t| (t.action, classes[side][t.to]))
                    .collect();
                steps.sort();
                steps.dedup();
                let fresh = known.len();
                of_side.push(*known.entry((classes[side][v], steps)).or_insert(fresh));
            }
            split.push(of_side);
        }
        classes = split;
        if known.len() == count {
            let second = classes.pop().expect("two charts");
            return (classes.pop().expect("two charts"), second);
        }
        count = known.len();
    }
}

/// The bisimulation collapse; the end is its vertex 0.
pub fn collapsed(chart: &Chart) -> Chart {
    let (class, _) = bisimilarity_classes(chart, chart);
    let count = class.iter().max().map_or(0, |most| most + 1);
    // Vertex 0 is seen first, so the end's class is 0.
    let transitions = chart.transitions.iter().map(|t| Transition {
        from: class[t.from],
        action: t.action,
        to: class[t.to],
    });
    chart_of(count, class[chart.start], transitions.collect())
}

/// Some transitions led to other vertices bisimilar to their targets. The part
/// that is then reached.
pub fn rewired(rng: &mut Rng, chart: &Chart) -> Chart {
    let (class, _) = bisimilarity_classes(chart, chart);
    let chance = rng.pick(&[10, 30, 100]);
    let transitions = chart.transitions.iter().map(|t| {
        let same: Vec<usize> = (0..chart.vertices)
            .filter(|&w| class[w] == class[t.to])
            .collect();
        let to = if rng.percent(chance) {
            rng.pick(&same)
        } else {
            t.to
        };
        Transition { to, ..*t }
    });
    reached_part(&chart_of(
        chart.vertices,
        chart.start,
        transitions.collect(),
    ))
    .0
}

/// Vertices split in copies: each copy's transitions go to one or several
/// copies of their targets. The part reached, within the limits; None where
/// it doesn't fit.
pub fn unfolded(rng: &mut Rng, chart: &Chart) -> Option<Chart> {
    let room = MOST_VERTICES - 1;
    let inner = chart.vertices - 1;
    let most = (room / inner).min(rng.pick(&[2, 2, 2, 3, 4, 8, 40]));
    let layers = rng.percent(50);
    let copies: Vec<usize> = (0..chart.vertices)
        .map(|v| match v {
            0 => 1,
            _ if layers => most.max(1),
            _ if rng.percent(40) => rng.between(1, most.max(1)),
            _ => 1,
        })
        .collect();
    let mut first = vec![0];
    for v in 0..chart.vertices {
        first.push(first[v] + copies[v]);
    }
    let several = rng.pick(&[0, 0, 10, 40]);
    let staying = rng.pick(&[0, 30, 70]);
    let mut transitions = Vec::new();
    for t in &chart.transitions {
        for copy in 0..copies[t.from] {
            let mut to = |other: usize| {
                transitions.push(Transition {
                    from: first[t.from] + copy,
                    action: t.action,
                    to: first[t.to] + other.min(copies[t.to] - 1),
                })
            };
            if layers {
                // On to the next layer or staying in it; the last one stays.
                // A loop that stays whole in a layer stays a loop.
                to(if rng.percent(staying) { copy } else { copy + 1 });
            } else {
                to(rng.below(copies[t.to]));
            }
            if rng.percent(several) {
                to(rng.between(copy, copies[t.to].max(copy + 1) - 1));
            }
        }
    }
    let start = first[chart.start]
        + if layers {
            0
        } else {
            rng.below(copies[chart.start])
        };
    let (unfolded, _) = reached_part(&chart_of(first[chart.vertices], start, transitions));
    (unfolded.transitions.len() <= MOST_TRANSITIONS).then_some(unfolded)
}
