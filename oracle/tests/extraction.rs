//! The expression of a chart, fast, against the plain one.
#[macro_use]
mod common;
mod extractions;
mod removals;
use extractions::FAST;

tests_of! { extractions:
    accepted_files(FAST, 90_000_000);
    damaged_files(FAST, 91_000_000);
    small_charts(FAST, 92_000_000);
    all_small_charts(FAST);
    single_texts(FAST);
    the_examples(FAST);
    growing_texts(FAST);
    at_the_limits(FAST);
    worst_files(FAST);
    order_of_refusals(FAST);
}
