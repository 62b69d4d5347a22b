//! The proved library and the plain checker on many files.
mod common;
mod proved;
use common::{files, first_body, g, in_a_stack, two_loops};
use oracle::gen::{self, Rng, Yard, CHECK_REFUSALS};
use oracle::{plain, Answer};
use std::collections::BTreeMap;
use std::fmt::Display;

/// How often each number was answered.
type Seen = BTreeMap<u64, u64>;

fn count(seen: &mut Seen, answer: Answer) {
    *seen.entry(answer.n).or_default() += 1;
}

/// The one answer to a file; says file, answers and seed where they differ.
fn same_check(file: &[u8], origin: &dyn Display) -> Answer {
    let (proved, plain) = (proved::check(file), plain::check(file));
    assert!(
        proved == plain,
        "{origin}: the library says {proved}, the plain checker {plain}\nfile {}",
        gen::hex(file)
    );
    plain
}

/// The one answer for an expression's chart, and the same bytes left in a
/// buffer of `lent` bytes.
fn same_chart(nodes: &[u8], lent: usize, origin: &dyn Display) -> Answer {
    let mut rng = Rng::new(lent as u64);
    let mut ours: Vec<u8> = (0..lent).map(|_| rng.word() as u8).collect();
    let mut theirs = ours.clone();
    let proved = proved::write_chart(nodes, &mut ours);
    let plain = plain::write_chart(nodes, &mut theirs);
    assert!(
        proved == plain && ours == theirs,
        "{origin}, {lent} bytes lent: the library says {proved:?} and leaves {}, \
         the plain checker {plain:?} and {}\nnodes {}",
        gen::hex(&ours),
        gen::hex(&theirs),
        gen::hex(nodes)
    );
    plain
}

/// Buffers long, exact, one byte short, and empty.
fn same_charts(nodes: &[u8], seen: &mut Seen, origin: &dyn Display) {
    let answer = same_chart(nodes, 9_000, origin);
    count(seen, answer);
    let needed = answer.p as usize;
    if answer.n != 0 {
        count(seen, same_chart(nodes, 3, origin));
        return;
    }
    for lent in [needed + 1, needed, needed - 1, 0] {
        count(seen, same_chart(nodes, lent, origin));
    }
}

/// The corpus has other seeds than that of agreement.rs.
fn same_on_the_corpus(seeds: impl Iterator<Item = u64>) {
    let (mut checks, mut charts, mut longest, mut shortest) = (Seen::new(), Seen::new(), 0, 99);
    let mut all = 0;
    for seed in seeds {
        let seed = 10_000_000 + seed;
        let file = gen::file(seed);
        let origin = format!("seed {seed}");
        count(&mut checks, same_check(&file, &origin));
        same_charts(first_body(&file), &mut charts, &origin);
        longest = longest.max(file.len());
        shortest = shortest.min(file.len());
        all += 1;
    }
    let accepted = checks[&0];
    assert!(
        accepted * 5 > all * 2 && accepted * 5 < all * 3,
        "{accepted} of {all} accepted"
    );
    for number in CHECK_REFUSALS {
        let times = checks.get(&number).copied().unwrap_or(0);
        assert!(times * 100 > all, "refusal {number} only {times} times");
    }
    assert_eq!(
        charts.keys().copied().collect::<Vec<_>>(),
        [0, 10, 11, 12, 54]
    );
    assert!(longest >= 43_536 && shortest < 20, "{shortest} {longest}");
}

// Two tests, so that two processors share the corpus.

#[test]
fn on_the_corpus_even_seeds() {
    same_on_the_corpus((0..files(24_000)).step_by(2));
}

#[test]
fn on_the_corpus_odd_seeds() {
    same_on_the_corpus((1..files(24_000)).step_by(2));
}

#[test]
fn on_other_damage_of_accepted_files() {
    for seed in 20_000_000..20_000_000 + files(2_000) {
        let mut rng = Rng::new(!seed);
        let mut file = gen::accepted(seed).file();
        for _ in 0..4 {
            let at = rng.below(file.len());
            file[at] = rng.word() as u8;
            same_check(&file, &format!("seed {seed}, byte {at}"));
        }
    }
}

#[test]
fn on_damaged_expressions() {
    let mut seen = Seen::new();
    for seed in 21_000_000..21_000_000 + files(3_000) {
        let mut rng = Rng::new(!seed);
        let mut nodes = gen::accepted(seed).expression;
        let at = rng.below(nodes.len());
        match rng.below(4) {
            0 => nodes.truncate(at),
            1 => nodes.extend([0; 200]),
            _ => nodes[at] = rng.below(8) as u8,
        }
        same_charts(&nodes, &mut seen, &format!("seed {seed}"));
    }
    assert_eq!(seen.len(), 5, "{seen:?}");
}

#[test]
fn on_every_change_of_one_byte_of_g() {
    let file = g().file();
    for at in 0..file.len() {
        for value in 0..=255 {
            let mut changed = file.clone();
            changed[at] = value;
            let origin = format!("byte {at} is {value}");
            same_check(&changed, &origin);
            same_chart(first_body(&changed), 40, &origin);
        }
    }
    for end in 0..file.len() {
        assert_eq!(same_check(&file[..end], &format!("{end} bytes")).n, 2);
    }
}

#[test]
fn on_the_worst_files_whole_and_damaged() {
    let mut rng = Rng::new(11);
    let mut seen = Seen::new();
    for (name, yard) in gen::worst::all() {
        assert_eq!(same_check(&yard.file(), &name).n, 0);
        for _ in 0..files(15) {
            let mut damaged = yard.clone();
            // Only labels and relation: all stages before them pass.
            let body = if rng.percent(50) {
                &mut damaged.labelling
            } else {
                &mut damaged.relation
            };
            let at = rng.below(body.len());
            body[at] ^= 1 << rng.below(8);
            count(&mut seen, same_check(&damaged.file(), &name));
        }
    }
    assert!(seen.keys().filter(|n| **n >= 32).count() >= 4, "{seen:?}");
}

#[test]
fn in_a_stack_of_128_kib() {
    for (name, yard) in gen::worst::all() {
        let file = yard.file();
        let nodes = yard.expression;
        let answers = in_a_stack(128, move || {
            let mut out = vec![0; 9_000];
            let checked = proved::check(&file);
            (checked.n, proved::write_chart(&nodes, &mut out).n)
        });
        assert_eq!(answers, (0, 0), "{name}");
    }
}

// The cases of document 01's last section, starred and not.

fn says(line: &str, change: impl FnOnce(&mut Yard)) {
    let mut yard = g();
    change(&mut yard);
    assert_eq!(same_check(&yard.file(), &line).to_string(), line);
}

#[test]
fn on_the_desk_s_files() {
    says("accepted 2 2 1", |_| {});
    says("refused 32 1 0 0", |y| y.labelling = vec![0, 0]);
    says("refused 34 1 1 0", |y| y.labelling = vec![1, 1]);
    says("refused 33 1 2 0", |y| y.labelling = vec![1, 2]);
    says("refused 42 3 1 0", |y| y.relation[48] = 0);
    says("refused 44 3 1 3", |y| y.relation[0] = 0);
    says("refused 43 0 1 0", |y| y.relation[0] = 3);
    says("refused 12 0 2 0", |y| {
        y.expression[8..].copy_from_slice(&[4, 0, 0, 0])
    });
    says("refused 35 1 1 2", |y| {
        y.chart = two_loops().bytes();
        y.labelling = vec![1, 0, 1, 0];
    });
    let mut file = g().file();
    file.push(0);
    assert_eq!(
        same_check(&file, &"a byte more").to_string(),
        "refused 4 106 0 0"
    );
    assert_eq!(same_check(&[], &"empty").to_string(), "refused 2 1 0 0");
}

#[test]
fn on_the_desk_s_expression_chart() {
    let mut out = [0xEE; 23];
    let answer = proved::write_chart(&g().expression, &mut out);
    assert_eq!(answer, Answer::fine(20, 0, 0));
    let wanted = [4, 3, 4, 0, 1, 1, 3, 0, 2, 2, 0, 0, 3, 1, 3, 0, 3, 2, 0, 0];
    assert_eq!(out[..20], wanted);
    assert_eq!(out[20..], [0xEE; 3]);
    for lent in 0..30 {
        same_chart(&g().expression, lent, &"G");
    }
}

#[test]
fn at_the_limits() {
    let longest = gen::worst::full_relation();
    let mut file = longest.file();
    assert_eq!(file.len(), 43_536);
    assert_eq!(same_check(&file, &"longest file").n, 0);
    file.push(0);
    assert_eq!(
        same_check(&file, &"one byte more").to_string(),
        "refused 1 0 0 0"
    );
    says("refused 10 512 0 0", |y| y.expression = vec![0; 512]);
    says("refused 20 0 0 0", |y| {
        y.chart = longest.chart.clone();
        y.chart[0] = 129;
    });
    says("refused 20 0 0 0", |y| {
        y.chart = longest.chart.clone();
        y.chart.extend([127, 2, 1, 0]);
        y.chart[2] = 1;
    });
}
