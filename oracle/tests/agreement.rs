//! The plain checker and the fast one on many files.
mod common;
use common::{both, files, g};
use oracle::gen::{self, Rng, CHECK_REFUSALS};
use oracle::{fast, plain};
use std::collections::BTreeMap;

#[test]
fn on_the_mixed_corpus() {
    let count = files(12_000);
    let mut seen: BTreeMap<u64, u64> = BTreeMap::new();
    for seed in 0..count {
        let answer = both(&gen::file(seed), &format!("seed {seed}"));
        *seen.entry(answer.n).or_default() += 1;
    }
    let accepted = seen[&0];
    assert!(
        accepted * 5 > count * 2 && accepted * 5 < count * 3,
        "{accepted} of {count} accepted"
    );
    for number in CHECK_REFUSALS {
        let times = seen.get(&number).copied().unwrap_or(0);
        assert!(times * 100 > count, "refusal {number} only {times} times");
    }
}

#[test]
fn on_other_damage_of_accepted_files() {
    // Every kind of damage, unaimed, at files that are otherwise sound.
    for seed in 0..files(3_000) {
        let yard = gen::accepted(1_000_000 + seed);
        let mut rng = Rng::new(seed);
        let mut file = yard.file();
        for _ in 0..6 {
            let at = rng.below(file.len());
            let kept = file[at];
            file[at] = rng.word() as u8;
            both(&file, &format!("seed {seed}, byte {at}"));
            if rng.percent(70) {
                file[at] = kept;
            }
        }
    }
}

#[test]
fn on_every_change_of_one_byte_of_g() {
    let file = g().file();
    let mut numbers = BTreeMap::new();
    for at in 0..file.len() {
        for value in 0..=255 {
            let mut changed = file.clone();
            changed[at] = value;
            let answer = both(&changed, &format!("byte {at} is {value}"));
            *numbers.entry(answer.n).or_insert(0) += 1;
        }
    }
    for end in 0..file.len() {
        assert_eq!(both(&file[..end], &format!("{end} bytes")).n, 2);
    }
    assert!(numbers.len() > 15, "{numbers:?}");
}

#[test]
fn on_the_worst_files() {
    for (name, yard) in gen::worst::all() {
        let answer = both(&yard.file(), &name);
        assert_eq!(answer.n, 0, "{name}: {answer}");
    }
    let of = |yard: gen::Yard| both(&yard.file(), &"worst");
    assert_eq!(of(gen::worst::many_vertices()).p, 128);
    assert_eq!(of(gen::worst::full_relation()).q, 8192);
    assert!(of(gen::worst::thousands_of_loops()).r > 3_000);
    assert!(of(gen::worst::most_loops()).r > 7_800);
    // The relation is all but full.
    let rows = gen::worst::full_relation().relation;
    let pairs: u32 = rows.iter().map(|byte| byte.count_ones()).sum();
    assert!(pairs > 126 * 126, "{pairs} pairs");
}

#[test]
fn on_damaged_worst_files() {
    let mut rng = Rng::new(7);
    let mut seen = BTreeMap::new();
    for (name, yard) in gen::worst::all() {
        for _ in 0..files(30) {
            let mut damaged = yard.clone();
            // Only labels and relation: all stages before them pass.
            if rng.percent(50) {
                let at = rng.below(damaged.labelling.len());
                damaged.labelling[at] = rng.word() as u8;
            } else {
                let at = rng.below(damaged.relation.len());
                damaged.relation[at] ^= 1 << rng.below(8);
            }
            let answer = both(&damaged.file(), &name);
            *seen.entry(answer.n).or_insert(0) += 1;
        }
    }
    assert!(seen.keys().filter(|n| **n >= 32).count() >= 5, "{seen:?}");
}

#[test]
fn on_worst_files_with_damaged_charts() {
    let mut rng = Rng::new(8);
    let mut seen = BTreeMap::new();
    for (name, yard) in gen::worst::all() {
        for _ in 0..files(60) {
            let mut damaged = yard.clone();
            let at = 4 + rng.below(damaged.chart.len() - 4);
            damaged.chart[at] ^= 1 << rng.below(8);
            let answer = both(&damaged.file(), &name);
            *seen.entry(answer.n).or_insert(0) += 1;
        }
    }
    assert!(seen[&21] > files(60), "{seen:?}");
}

#[test]
fn on_expression_charts() {
    let mut refusals = BTreeMap::new();
    for seed in 0..files(3_000) {
        let mut rng = Rng::new(seed);
        let mut body = gen::accepted(2_000_000 + seed).expression;
        if rng.percent(40) {
            match rng.below(3) {
                0 => body.truncate(rng.below(body.len() + 1)),
                1 => body.extend([0; 200]),
                _ => {}
            }
            if !body.is_empty() {
                let at = rng.below(body.len());
                body[at] = rng.below(8) as u8;
            }
        }
        let mut lent = vec![0; rng.pick(&[0, 3, 20, 100, 600, 9_000, 9_000, 9_000])];
        lent.fill_with(|| rng.word() as u8);
        let (mut one, mut other) = (lent.clone(), lent.clone());
        let (a, b) = (
            plain::write_chart(&body, &mut one),
            fast::write_chart(&body, &mut other),
        );
        assert!(
            a == b && one == other,
            "seed {seed}: {a:?}, {b:?}, nodes {}",
            gen::hex(&body)
        );
        *refusals.entry(a.n).or_insert(0) += 1;
        // What is past the chart, or all after a refusal, is kept.
        let written = if a.n == 0 { a.p as usize } else { 0 };
        assert_eq!(one[written..], lent[written..], "seed {seed}");
    }
    assert_eq!(
        refusals.keys().copied().collect::<Vec<_>>(),
        [0, 10, 11, 12, 54]
    );
}

#[test]
fn on_transitions_leaving_a_vertex() {
    let mut found = 0;
    for seed in 0..files(600) {
        let yard = gen::accepted(3_000_000 + seed);
        let mut all: Vec<u8> = Vec::new();
        for vertex in (0..130).chain([255, 256, 257, 1 << 40]) {
            let part = plain::transitions_leaving(&yard.chart, vertex);
            assert_eq!(
                part,
                fast::transitions_leaving(&yard.chart, vertex),
                "seed {seed}"
            );
            all.extend(part);
            found += part.len();
        }
        assert_eq!(all, yard.chart[4..], "seed {seed}");
        let mut broken = yard.chart.clone();
        let at = Rng::new(seed).below(broken.len());
        broken[at] ^= 0x81;
        for vertex in 0..4 {
            let part = plain::transitions_leaving(&broken, vertex);
            assert_eq!(
                part,
                fast::transitions_leaving(&broken, vertex),
                "seed {seed}"
            );
        }
    }
    assert!(found > 0);
}
