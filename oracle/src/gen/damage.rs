//! Damage for every refusal of the check.
use super::rng::Rng;
use super::Yard;
use crate::plain::{loop_body, loops, Chart, Transition, LONGEST_FILE};

/// The numbers that the check refuses with.
pub const CHECK_REFUSALS: [u64; 21] = [
    1, 2, 3, 4, 10, 11, 12, 20, 21, 30, 31, 32, 33, 34, 35, 40, 41, 42, 43, 44, 45,
];

/// The file with damage that aims at this refusal of the check, sometimes with
/// more damage elsewhere or at random, so that another one may come first. None
/// where the aim is missed.
pub fn damaged(rng: &mut Rng, yard: &Yard, number: u64) -> Option<Vec<u8>> {
    if rng.percent(2) {
        let length = rng.below(60);
        return Some((0..length).map(|_| rng.word() as u8).collect());
    }
    let mut yard = if number >= 10 {
        aimed(rng, yard, number)?
    } else {
        yard.clone()
    };
    if rng.percent(20) {
        // A second fault: which one is told shows the order of the checks.
        let other = rng.pick(&CHECK_REFUSALS);
        if other >= 10 {
            yard = edited(rng, &yard, other);
        }
    }
    let mut file = yard.file();
    if number < 10 {
        transfer(rng, &mut file, number);
    }
    if rng.percent(10) && !file.is_empty() {
        for _ in 0..rng.between(1, 3) {
            let at = rng.below(file.len());
            file[at] = if rng.percent(50) {
                rng.word() as u8
            } else {
                file[at] ^ 1 << rng.below(8)
            };
        }
    }
    Some(file)
}

/// Damage in transfer: refusals 1 to 4.
fn transfer(rng: &mut Rng, file: &mut Vec<u8>, number: u64) {
    let mut headers = vec![0];
    for _ in 0..3 {
        let at = headers[headers.len() - 1];
        if at + 4 <= file.len() {
            headers.push(at + 4 + u16::from_le_bytes([file[at], file[at + 1]]) as usize);
        }
    }
    headers.retain(|at| at + 4 <= file.len());
    let header = rng.pick(&headers);
    match number {
        1 => file.resize(
            LONGEST_FILE + rng.pick(&[0, 1, 1, 1, 2, 40, 30_000]),
            rng.word() as u8,
        ),
        2 => match rng.below(3) {
            0 => file.truncate(rng.below(file.len())),
            1 => file.truncate(header + rng.below(5)),
            _ => file[header + 1] = file[header + 1].wrapping_add(rng.between(1, 250) as u8),
        },
        3 => match rng.below(3) {
            0 => file[header + 2] = rng.below(6) as u8,
            1 => file[header + 3] = rng.between(1, 255) as u8,
            _ => file[header + 2] = rng.word() as u8,
        },
        _ => {
            let extra = rng.pick(&[1, 1, 2, 4, 16, 300]);
            file.extend((0..extra).map(|_| rng.word() as u8));
        }
    }
}

/// Tries until the check refuses with the wanted number, some few times. It is
/// the plain check, which takes its time: long files get what comes first.
fn aimed(rng: &mut Rng, yard: &Yard, number: u64) -> Option<Yard> {
    if yard.chart.len() > 3_000 {
        return Some(edited(rng, yard, number));
    }
    (0..12)
        .map(|_| edited(rng, yard, number))
        .find(|edited| crate::plain::check(&edited.file()).n == number)
}

fn edited(rng: &mut Rng, yard: &Yard, number: u64) -> Yard {
    let mut yard = yard.clone();
    match number {
        10..=12 => expression(rng, &mut yard.expression, number),
        20 | 21 => chart(rng, &mut yard.chart, number),
        30 => length(rng, &mut yard.labelling, 1),
        31 => unreached(rng, &mut yard),
        32..=35 => labels(rng, &mut yard, number),
        40 => length(rng, &mut yard.relation, 16),
        _ => relation(rng, &mut yard, number),
    }
    yard
}

/// Another length, by single bytes or by whole units.
fn length(rng: &mut Rng, body: &mut Vec<u8>, unit: usize) {
    let by = if rng.percent(50) { unit } else { 1 } * rng.pick(&[1, 1, 1, 2, 3]);
    match rng.below(7) {
        0 => body.clear(),
        1..=3 => body.truncate(body.len().saturating_sub(by)),
        _ => body.extend(vec![rng.below(2) as u8; by]),
    }
}

fn expression(rng: &mut Rng, body: &mut Vec<u8>, number: u64) {
    let nodes = body.len() / 4;
    if number == 10 || nodes == 0 {
        match rng.below(5) {
            0 => body.clear(),
            1 => body.resize(512 + 4 * rng.below(3), 0),
            2 => body.truncate(body.len().saturating_sub(rng.between(1, 3))),
            _ => body.extend(vec![0; rng.between(1, 3)]),
        }
        return;
    }
    let k = rng.below(nodes);
    let node = 4 * k;
    if number == 12 {
        // An operand becomes another lower node, or a leaf is put in between.
        let both: Vec<usize> = (0..nodes).filter(|&k| body[4 * k] >= 2).collect();
        if both.is_empty() {
            body.extend([0, 0, 0, 0]);
        } else {
            let k = rng.pick(&both);
            body[4 * k + rng.between(2, 3)] = rng.below(k.max(1)) as u8;
        }
        return;
    }
    match rng.below(7) {
        0 => body[node] = rng.between(5, 255) as u8,
        1 => {
            body[node + 1] = if body[node] == 1 {
                0
            } else {
                rng.between(1, 255) as u8
            }
        }
        2 => body[node + rng.between(2, 3)] = rng.between(k, 255) as u8,
        3 => body[node + rng.between(2, 3)] = rng.between(1, 255) as u8,
        4 => body[node] = rng.below(6) as u8,
        5 => body[node + 2] = k as u8,
        _ => body[node + rng.below(4)] = rng.word() as u8,
    }
}

fn chart(rng: &mut Rng, body: &mut Vec<u8>, number: u64) {
    if number == 20 || body.len() < 8 {
        if body.len() < 4 {
            return body.clear();
        }
        let count = u16::from_le_bytes([body[2], body[3]]);
        match rng.below(8) {
            0 => body[0] = rng.pick(&[0, 1, 129, 200, 255]),
            1 => body[1] = rng.pick(&[0, body[0], 255]),
            2 => body[2..4].copy_from_slice(&count.wrapping_add(1).to_le_bytes()),
            3 => body[2..4].copy_from_slice(&count.wrapping_sub(1).to_le_bytes()),
            4 => body.truncate(rng.below(4)),
            5 => body.extend(vec![0; rng.between(1, 4)]),
            6 => body.truncate(body.len() - rng.between(1, 4).min(body.len() - 4).max(1)),
            _ => {
                body.resize(4 + 4 * 8193, 0);
                body[2..4].copy_from_slice(&8193u16.to_le_bytes());
            }
        }
        return;
    }
    let count = body.len() / 4 - 1;
    let at = 4 + 4 * rng.below(count);
    match rng.below(7) {
        0 => body[at] = rng.pick(&[0, body[0], 255]),
        1 => body[at + 1] = 0,
        2 => body[at + 2] = rng.between(body[0] as usize, 255) as u8,
        3 => body[at + 3] = rng.between(1, 255) as u8,
        4 if count > 1 => {
            // Two neighbours equal.
            let first = 4 + 4 * rng.below(count - 1);
            body.copy_within(first..first + 4, first + 4);
        }
        5 if count > 1 => {
            let (one, other) = (4 + 4 * rng.below(count), 4 + 4 * rng.below(count));
            for i in 0..4 {
                body.swap(one + i, other + i);
            }
        }
        _ => body[at + rng.below(3)] = rng.word() as u8,
    }
}

/// Changes the chart's list of transitions and the labels with it.
fn redrawn(yard: &mut Yard, change: impl FnOnce(&mut Chart, &mut Vec<(Transition, u8)>)) {
    let Ok(mut chart) = Chart::read(&yard.chart) else {
        return;
    };
    if yard.labelling.len() != chart.transitions.len() {
        return;
    }
    let mut labelled: Vec<(Transition, u8)> = chart
        .transitions
        .iter()
        .copied()
        .zip(yard.labelling.iter().copied())
        .collect();
    change(&mut chart, &mut labelled);
    labelled.sort();
    labelled.dedup_by_key(|(t, _)| *t);
    chart.transitions = labelled.iter().map(|(t, _)| *t).collect();
    yard.labelling = labelled.into_iter().map(|(_, label)| label).collect();
    yard.chart = chart.bytes();
}

fn unreached(rng: &mut Rng, yard: &mut Yard) {
    let by = rng.below(4);
    redrawn(yard, |chart, labelled| match by {
        // A vertex more, perhaps with a way out.
        0 | 1 if chart.vertices < 128 => {
            let new = chart.vertices;
            chart.vertices += 1;
            if rng.percent(50) {
                let to = rng.below(new + 1);
                labelled.push((
                    Transition {
                        from: new,
                        action: 1,
                        to,
                    },
                    rng.below(2) as u8,
                ));
            }
        }
        2 => chart.start = rng.between(1, chart.vertices - 1),
        _ if !labelled.is_empty() => {
            let cut = rng.below(labelled.len());
            let to = labelled[cut].0.to;
            if rng.percent(50) {
                labelled.retain(|(t, _)| t.to != to);
            } else {
                labelled.remove(cut);
            }
        }
        _ => {}
    });
}

fn labels(rng: &mut Rng, yard: &mut Yard, number: u64) {
    let Ok(chart) = Chart::read(&yard.chart) else {
        return;
    };
    let labels = &mut yard.labelling;
    if labels.is_empty() || labels.len() != chart.transitions.len() {
        return;
    }
    let loops: Vec<_> = loops(&chart, labels).into_iter().collect();
    let some = rng.below(labels.len());
    if number == 32 || loops.is_empty() {
        match rng.below(3) {
            0 => labels.fill(0),
            1 if !loops.is_empty() => {
                let (v, level) = rng.pick(&loops);
                for index in chart.leaving(v) {
                    if labels[index] == level {
                        labels[index] = 0;
                    }
                }
            }
            _ if loops.is_empty() => labels[some] = rng.between(1, 4) as u8,
            _ => {
                let entries: Vec<usize> = (0..labels.len()).filter(|&i| labels[i] != 0).collect();
                labels[rng.pick(&entries)] = 0;
            }
        }
        return;
    }
    let (v, level) = rng.pick(&loops);
    if number == 35 {
        // An entry inside the body comes up to the loop's level or above, or
        // the loop comes down to it.
        let inside = loop_body(&chart, labels, (v, level));
        let inner: Vec<_> = loops
            .iter()
            .copied()
            .filter(|(w, _)| *w != v && inside.contains(w))
            .collect();
        if !inner.is_empty() {
            let (w, lower) = rng.pick(&inner);
            let (at, from, to) = match rng.below(3) {
                0 => (v, level, lower),
                1 => (w, lower, level),
                _ => (w, lower, level.saturating_add(rng.between(0, 9) as u8)),
            };
            for index in chart.leaving(at) {
                if labels[index] == from {
                    labels[index] = to;
                }
            }
            return;
        }
        let bodies: Vec<usize> = inside
            .into_iter()
            .filter(|&w| w != v)
            .flat_map(|w| chart.leaving(w))
            .collect();
        if !bodies.is_empty() {
            labels[rng.pick(&bodies)] = level;
            return;
        }
    }
    match rng.below(5) {
        0 => labels[some] = rng.between(1, 255) as u8,
        1 => labels[some] = level,
        // A way out of the loop's vertex joins the loop, or is one of its own.
        2 => labels[rng.pick(&chart.leaving(v).collect::<Vec<_>>())] = level,
        3 => labels[rng.pick(&chart.leaving(v).collect::<Vec<_>>())] = rng.between(1, 255) as u8,
        _ => {
            let ends: Vec<usize> = (0..labels.len())
                .filter(|&i| chart.transitions[i].to == 0)
                .collect();
            if ends.is_empty() {
                labels[some] = level.saturating_add(1);
            } else {
                let end = rng.pick(&ends);
                labels[end] = if labels[end] == 0 {
                    rng.between(1, 9) as u8
                } else {
                    0
                };
            }
        }
    }
}

fn relation(rng: &mut Rng, yard: &mut Yard, number: u64) {
    let Ok(chart) = Chart::read(&yard.chart) else {
        return;
    };
    let rows = yard.relation.len() / 16;
    if rows < 2 {
        return;
    }
    let set = |body: &mut Vec<u8>, u: usize, v: usize| body[16 * u + v / 8] |= 1 << (v % 8);
    let clear = |body: &mut Vec<u8>, u: usize, v: usize| body[16 * u + v / 8] &= !(1 << (v % 8));
    let (u, v) = (rng.between(1, rows - 1), rng.between(1, chart.vertices - 1));
    match number {
        41 => {
            for _ in 0..rng.between(1, 3) {
                set(
                    &mut yard.relation,
                    rng.below(rows),
                    rng.between(chart.vertices.min(127), 127),
                );
            }
        }
        42 => {
            clear(&mut yard.relation, rows - 1, chart.start);
            if rng.percent(20) {
                yard.relation.fill(0);
            }
        }
        43 => {
            // Deadlock is what is most easily taken for the end.
            let deadlocks: Vec<usize> = (1..chart.vertices)
                .filter(|&v| chart.leaving(v).is_empty())
                .collect();
            let zeros: Vec<usize> = (1..rows)
                .filter(|&u| yard.expression.get(4 * u - 4) == Some(&0))
                .collect();
            match rng.below(4) {
                0 if !deadlocks.is_empty() => set(&mut yard.relation, 0, rng.pick(&deadlocks)),
                1 if !zeros.is_empty() => set(&mut yard.relation, rng.pick(&zeros), 0),
                2 => set(&mut yard.relation, 0, v),
                _ => set(&mut yard.relation, u, 0),
            }
        }
        _ => match rng.below(6) {
            0 => set(&mut yard.relation, u, v),
            1 => {
                let bits: Vec<usize> = (0..128 * rows)
                    .filter(|b| yard.relation[b / 8] & (1 << (b % 8)) != 0)
                    .collect();
                if !bits.is_empty() {
                    let b = rng.pick(&bits);
                    yard.relation[b / 8] &= !(1 << (b % 8));
                }
            }
            2 => clear(&mut yard.relation, 0, 0),
            by => redrawn(yard, |chart, labelled| {
                let action = rng.between(1, 6) as u8;
                let to = rng.below(chart.vertices);
                match by {
                    3 if labelled.len() < 8192 => {
                        labelled.push((
                            Transition {
                                from: v,
                                action,
                                to,
                            },
                            0,
                        ));
                    }
                    4 if !labelled.is_empty() => {
                        let at = rng.below(labelled.len());
                        labelled[at].0.action = action;
                    }
                    _ if !labelled.is_empty() => {
                        labelled.remove(rng.below(labelled.len()));
                    }
                    _ => {}
                }
            }),
        },
    }
}
