//! Bisimulations between the expression's chart and another.
use super::charts::bisimilarity_classes;
use super::rng::Rng;
use crate::plain::{Chart, Pairs};

/// All bisimilar pairs.
pub fn greatest(expression: &Chart, chart: &Chart) -> Pairs {
    let (of_u, of_v) = bisimilarity_classes(expression, chart);
    let mut pairs = Pairs::new();
    for u in 0..expression.vertices {
        for v in 0..chart.vertices {
            if of_u[u] == of_v[v] {
                pairs.insert((u, v));
            }
        }
    }
    pairs
}

/// The pairs of `greatest` that `seeds` lead to. With `thin`, each transition
/// leads to one match of it, else to all.
pub fn reached(
    rng: &mut Rng,
    expression: &Chart,
    chart: &Chart,
    greatest: &Pairs,
    seeds: Vec<(usize, usize)>,
    thin: bool,
) -> Pairs {
    let mut pairs: Pairs = seeds.iter().copied().collect();
    let mut to_visit = seeds;
    while let Some((u, v)) = to_visit.pop() {
        let (of_u, of_v) = (
            &expression.transitions[expression.leaving(u)],
            &chart.transitions[chart.leaving(v)],
        );
        let mut matches = Vec::new();
        for s in of_u {
            for t in of_v {
                if s.action == t.action && greatest.contains(&(s.to, t.to)) {
                    matches.push((*s, *t));
                }
            }
        }
        if thin {
            rng.shuffle(&mut matches);
            let mut kept = Vec::new();
            // A match is kept only where one of its two has none yet.
            for (s, t) in matches {
                if !kept.iter().any(|(other, _)| *other == s)
                    || !kept.iter().any(|(_, other)| *other == t)
                {
                    kept.push((s, t));
                }
            }
            matches = kept;
        }
        for (s, t) in matches {
            if pairs.insert((s.to, t.to)) {
                to_visit.push((s.to, t.to));
            }
        }
    }
    pairs
}

/// The relation's body.
pub fn bytes(expression: &Chart, pairs: &Pairs) -> Vec<u8> {
    let mut body = vec![0; 16 * expression.vertices];
    for &(u, v) in pairs {
        body[16 * u + v / 8] |= 1 << (v % 8);
    }
    body
}
