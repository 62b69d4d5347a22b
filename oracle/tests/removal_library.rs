//! The proved library's removal against the plain one and the plain set of
//! loops.
#[macro_use]
mod common;
mod proved;
mod removals;
use common::in_a_stack;
use oracle::gen::{lists, worst, Rng};
use proved::remove;
use std::collections::BTreeSet;

tests_of! { removals:
    lists_against_the_plain_set(remove, 30_000_000);
    orders_of_all_loops(remove, 31_000_000);
    any_bytes(remove, 32_000_000);
    all_of_a_small_chart(remove);
    loop_inside_a_loop(remove);
    at_the_limits(remove);
    worst_files(remove);
}

#[test]
fn in_a_stack_of_32_kib() {
    let mut seen = BTreeSet::new();
    for (_, yard) in worst::all() {
        let pairs = lists::removals(&mut Rng::new(7), &yard, 100);
        seen.extend(in_a_stack(32, move || {
            let mut standing = vec![1; yard.labelling.len()];
            let call = |(v, level)| remove(&yard.chart, &yard.labelling, v, level, &mut standing).n;
            pairs.into_iter().map(call).collect::<Vec<_>>()
        }));
    }
    assert!(seen.into_iter().eq([0, 51, 52]));
}
