//! The proved library's expression of a chart against the plain one, and its check
//! of what is written.
#[macro_use]
mod common;
mod extractions;
mod proved;
mod removals;
use common::in_a_stack;
use extractions::Calls;
use oracle::gen::worst;
use std::collections::BTreeSet;

const LIBRARY: Calls = Calls {
    write_expression: proved::write_expression,
    check: proved::check,
};

tests_of! { extractions:
    accepted_files(LIBRARY, 100_000_000);
    damaged_files(LIBRARY, 101_000_000);
    small_charts(LIBRARY, 102_000_000);
    all_small_charts(LIBRARY);
    single_texts(LIBRARY);
    the_examples(LIBRARY);
    growing_texts(LIBRARY);
    at_the_limits(LIBRARY);
    worst_files(LIBRARY);
    order_of_refusals(LIBRARY);
}

#[test]
fn in_a_stack_of_32_kib() {
    let mut seen = BTreeSet::new();
    let files = worst::all().into_iter();
    let files = files.map(|(_, yard)| (yard.chart, yard.labelling));
    let made = worst::extractions().into_iter();
    for (chart, labels) in files.chain(made.map(|(_, made)| (made.chart, made.labels))) {
        seen.extend(in_a_stack(32, move || {
            let mut out = [0; 508];
            // Enough bytes, then none.
            let call = |lent: usize| proved::write_expression(&chart, &labels, &mut out[..lent]).n;
            [508, 0].map(call)
        }));
    }
    assert!(seen.into_iter().eq([0, 54, 58]));
}
