//! Several loops out together, fast, against the plain call, and the plain one
//! against single removals and by its definition.
#[macro_use]
mod common;
mod loop_lists;
mod removals;
use loop_lists::{FAST, PLAIN};

tests_of! { loop_lists:
    lists_against_the_plain_set(FAST, 70_000_000);
    all_loops_by_lists(FAST, 71_000_000);
    any_labels(FAST, 72_000_000);
    any_bytes(FAST, 73_000_000);
    all_of_a_small_chart(FAST);
    single_lists(FAST);
    over_what_stands_first(FAST);
    order_of_refusals(FAST);
    all_lengths(FAST);
    at_the_limits(FAST);
    worst_files(FAST);
}

#[test]
fn plain_singly_by_plain_removals() {
    loop_lists::any_labels(PLAIN, 74_000_000);
}
