//! The proved library's removal of several loops together against the plain one
//! and against the library's single removals.
#[macro_use]
mod common;
mod loop_lists;
mod proved;
mod removals;
use common::in_a_stack;
use loop_lists::Calls;
use oracle::gen::worst;
use std::collections::BTreeSet;

const LIBRARY: Calls = Calls {
    together: proved::remove_together,
    remove: proved::remove,
};

tests_of! { loop_lists:
    lists_against_the_plain_set(LIBRARY, 80_000_000);
    all_loops_by_lists(LIBRARY, 81_000_000);
    any_labels(LIBRARY, 82_000_000);
    any_bytes(LIBRARY, 83_000_000);
    all_of_a_small_chart(LIBRARY);
    single_lists(LIBRARY);
    over_what_stands_first(LIBRARY);
    order_of_refusals(LIBRARY);
    all_lengths(LIBRARY);
    at_the_limits(LIBRARY);
    worst_files(LIBRARY);
}

#[test]
fn in_a_stack_of_32_kib() {
    let mut seen = BTreeSet::new();
    for (_, made) in worst::together_calls() {
        seen.extend(in_a_stack(32, move || {
            // Each beginning of the list, over all that stands.
            let call = |count: usize| {
                let (loops, mut standing) = (&made.loops[..2 * count], made.standing.clone());
                proved::remove_together(&made.chart, &made.labels, loops, &mut standing).n
            };
            let counts = 0..=made.loops.len() / 2;
            counts.map(call).collect::<Vec<_>>()
        }));
    }
    assert!(seen.into_iter().eq([0, 57]));
}
