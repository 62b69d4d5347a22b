//! Relations: checks 40 to 45, and 001's bisimulation beside them.
use super::chart::Chart;
use crate::Answer;
use std::collections::BTreeSet;

/// Related pairs: expression vertex, chart vertex.
pub type Pairs = BTreeSet<(usize, usize)>;

/// Refusals 40 and 41.
pub fn read_relation(body: &[u8], expression: &Chart, chart: &Chart) -> Result<Pairs, Answer> {
    if body.len() != 16 * expression.vertices {
        return Err(Answer::new(40, body.len() as u64, 0, 0));
    }
    let mut pairs = Pairs::new();
    for (u, row) in body.chunks(16).enumerate() {
        for v in 0..128 {
            if row[v / 8] & (1 << (v % 8)) != 0 {
                if v >= chart.vertices {
                    return Err(Answer::new(41, u as u64, v as u64, 0));
                }
                pairs.insert((u, v));
            }
        }
    }
    Ok(pairs)
}

/// Refusals 42 to 45.
pub fn check_relation(expression: &Chart, chart: &Chart, pairs: &Pairs) -> Result<(), Answer> {
    let starts = (expression.start, chart.start);
    if !pairs.contains(&starts) {
        return Err(Answer::new(42, starts.0 as u64, starts.1 as u64, 0));
    }
    for &(u, v) in pairs {
        let refused = |n: u64, r: usize| Err(Answer::new(n, u as u64, v as u64, r as u64));
        if (u == 0) != (v == 0) {
            return refused(43, 0);
        }
        let matches = |r: usize, s: usize| {
            let (of_u, of_v) = (expression.transitions[r], chart.transitions[s]);
            of_u.action == of_v.action && pairs.contains(&(of_u.to, of_v.to))
        };
        let mut of_u = expression.leaving(u);
        if let Some(r) = of_u.find(|&r| !chart.leaving(v).any(|s| matches(r, s))) {
            return refused(44, r);
        }
        let mut of_v = chart.leaving(v);
        if let Some(s) = of_v.find(|&s| !expression.leaving(u).any(|r| matches(r, s))) {
            return refused(45, s);
        }
    }
    Ok(())
}

/// 001's bisimulation: a symmetric relation on the vertices of both charts,
/// between the one's and the other's, that relates the starts and has progress
/// and termination.
pub fn is_bisimulation(expression: &Chart, chart: &Chart, pairs: &Pairs) -> bool {
    // Side 0 is the expression's chart, side 1 the panel's.
    let charts = [expression, chart];
    let related: BTreeSet<((usize, usize), (usize, usize))> = pairs
        .iter()
        .flat_map(|&(u, v)| [((0, u), (1, v)), ((1, v), (0, u))])
        .collect();
    let steps = |(side, vertex): (usize, usize)| {
        charts[side]
            .transitions
            .iter()
            .filter(move |t| t.from == vertex)
            .map(move |t| (t.action, (side, t.to)))
            .collect::<Vec<_>>()
    };
    let progress = related.iter().all(|&(one, other)| {
        let others = steps(other);
        steps(one).iter().all(|&(action, to)| {
            others
                .iter()
                .any(|&(a, other_to)| a == action && related.contains(&(to, other_to)))
        })
    });
    let termination = related
        .iter()
        .all(|&((_, one), (_, other))| one != 0 || other == 0);
    related.contains(&((0, expression.start), (1, chart.start))) && progress && termination
}
