//! The fast removal against the plain one and the plain set of loops.
#[macro_use]
mod common;
mod removals;
use oracle::fast::remove;

tests_of! { removals:
    lists_against_the_plain_set(remove, 4_000_000);
    orders_of_all_loops(remove, 5_000_000);
    any_bytes(remove, 6_000_000);
    all_of_a_small_chart(remove);
    at_the_limits(remove);
    worst_files(remove);
}
