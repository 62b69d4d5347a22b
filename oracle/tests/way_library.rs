//! The proved library's shortest way against the plain one.
#[macro_use]
mod common;
mod followers;
mod proved;
mod ways;
use common::in_a_stack;
use followers::Follower;
use oracle::gen::lists::state_with;
use oracle::gen::worst;
use proved::shortest_way;
use std::collections::BTreeSet;

const LIBRARY: Follower = Follower {
    restart: proved::restart,
    event: proved::event,
    write_chart: proved::write_chart,
};

tests_of! { ways:
    random_charts(shortest_way, 60_000_000);
    accepted_files(shortest_way, 61_000_000);
    along_runs(shortest_way, LIBRARY, 61_500_000);
    any_bytes(shortest_way, 62_000_000);
    all_small_charts(shortest_way);
    all_states_of_a_small_chart(shortest_way);
    at_the_end(shortest_way);
    single_lists(shortest_way);
    without_a_way(shortest_way);
    order_of_refusals(shortest_way);
    a_line(shortest_way);
    at_the_limits(shortest_way);
}

#[test]
fn in_a_stack_of_32_kib() {
    let mut seen = BTreeSet::new();
    let charts = worst::all().into_iter().map(|(_, yard)| yard.chart);
    let ways = worst::way_calls().into_iter().map(|(_, made)| made.chart);
    for chart in charts.chain(ways) {
        seen.extend(in_a_stack(32, move || {
            let mut out = [0; 127];
            // Each vertex alone, then all but the end, and these spoilt.
            let all_inner = u128::MAX >> (128 - u32::from(chart[0])) & !1;
            let single = (0..chart[0]).map(|v| (1 << v, 0));
            let states = single.chain([(all_inner, 0), (all_inner, 1)]);
            let call = |(set, mark)| shortest_way(&chart, &state_with(set, mark), &mut out).n;
            states.map(call).collect::<Vec<_>>()
        }));
    }
    assert!(seen.into_iter().eq([0, 55]));
}
