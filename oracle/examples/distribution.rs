//! Counts the answers of the check over the mixed corpus.
//! Usage: distribution [seeds, 20000 if not given] [first seed]
use std::collections::BTreeMap;
use std::time::Instant;

fn main() {
    let mut numbers = std::env::args()
        .skip(1)
        .map(|arg| arg.parse::<u64>().expect("a number"));
    let seeds = numbers.next().unwrap_or(20_000);
    let first = numbers.next().unwrap_or(0);
    let mut counts: BTreeMap<u64, u64> = BTreeMap::new();
    let (mut made, mut plain, mut fast) = (0.0, 0.0, 0.0);
    let (mut bytes, mut loops, mut vertices) = (0, 0, 0);
    for seed in first..first + seeds {
        let start = Instant::now();
        let file = oracle::gen::file(seed);
        made += start.elapsed().as_secs_f64();
        let start = Instant::now();
        let answer = oracle::plain::check(&file);
        plain += start.elapsed().as_secs_f64();
        let start = Instant::now();
        let other = oracle::fast::check(&file);
        fast += start.elapsed().as_secs_f64();
        if answer != other {
            println!("seed {seed}: plain {answer}, fast {other}");
        }
        *counts.entry(answer.n).or_default() += 1;
        bytes += file.len();
        if answer.n == 0 {
            loops += answer.r;
            vertices += answer.p;
        }
    }
    for (number, count) in counts {
        println!(
            "{number:>3} {count:>6} {:>5.1} %",
            100.0 * count as f64 / seeds as f64
        );
    }
    println!("bytes {bytes}, vertices {vertices} and loops {loops} in accepted files");
    println!("seconds: generator {made:.2}, plain {plain:.2}, fast {fast:.3}");
}
