//! The proved library's follower against the plain one and the published rules'.
#[macro_use]
mod common;
mod followers;
mod proved;
use common::in_a_stack;
use followers::Follower;
use oracle::gen::lists::{self, Call};
use oracle::gen::{worst, Rng};
use oracle::{NOT_POSSIBLE, SPOILT, TAKEN};
use std::collections::BTreeSet;

const LIBRARY: Follower = Follower {
    restart: proved::restart,
    event: proved::event,
    write_chart: proved::write_chart,
};

tests_of! { followers:
    lists_against_the_rules(LIBRARY, 40_000_000);
    spoilt_until_a_restart(LIBRARY, 40_500_000);
    any_bytes(LIBRARY, 41_000_000);
    all_of_a_small_chart(LIBRARY);
    order_of_refusals(LIBRARY);
    at_the_limits(LIBRARY);
    starred_run(LIBRARY);
}

#[test]
fn in_a_stack_of_32_kib() {
    let mut seen = BTreeSet::new();
    for (_, yard) in worst::all() {
        let list = lists::events(&mut Rng::new(7), &yard, 100);
        seen.extend(in_a_stack(32, move || {
            let mut state = [0; 17];
            let calls = [Call::Restart].into_iter().chain(list);
            let answers = calls.map(|call| LIBRARY.answer(call, &yard.chart, &mut state));
            answers
                .map(|answer| (answer.n, answer.p))
                .collect::<Vec<_>>()
        }));
    }
    let words = [NOT_POSSIBLE, TAKEN, SPOILT];
    assert!(seen.into_iter().eq(words.map(|word| (0, word))));
}
