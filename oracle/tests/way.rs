//! The fast shortest way against the plain one, and the plain one against all
//! lists of events.
#[macro_use]
mod common;
mod followers;
mod ways;
use common::{all_lists, chart, files};
use followers::FAST;
use oracle::fast::shortest_way;
use oracle::gen::lists::{state_with, State};
use oracle::gen::Rng;
use oracle::{plain, Answer};

tests_of! { ways:
    random_charts(shortest_way, 50_000_000);
    accepted_files(shortest_way, 51_000_000);
    along_runs(shortest_way, FAST, 51_500_000);
    any_bytes(shortest_way, 52_000_000);
    all_small_charts(shortest_way);
    all_states_of_a_small_chart(shortest_way);
    at_the_end(shortest_way);
    single_lists(shortest_way);
    without_a_way(shortest_way);
    order_of_refusals(shortest_way);
    a_line(shortest_way);
    at_the_limits(shortest_way);
}

/// Whether the end is in the set after these events, and the run not spoilt.
fn ends(chart: &[u8], mut state: State, list: &[u8]) -> bool {
    for event in list {
        plain::event_lent(chart, &mut state, *event);
    }
    state[0] & 1 == 1 && state[16] == 0
}

/// A few transitions among four vertices, seldom by more than one towards the
/// end.
fn tiny_chart(rng: &mut Rng) -> Vec<u8> {
    let count = rng.below(8);
    let steps = (0..count).map(|_| {
        let from = rng.between(1, 3);
        let lowest = if rng.percent(10) { 0 } else { from - 1 };
        let to = rng.between(lowest, 3);
        (from, rng.between(1, 3) as u8, to)
    });
    chart(4, 1, &steps.collect::<Vec<_>>()).bytes()
}

/// Shorter lists come first, each run by the follower, events that aren't
/// possible among them: the first that ends is the list. Where none of up to V
/// events does, there is no way.
#[test]
fn plain_is_the_first_of_all_lists() {
    let all: Vec<Vec<u8>> = (0..=4)
        .flat_map(|length| all_lists(&[0, 1, 2, 3], length))
        .collect();
    let (mut without, mut lengths) = (0, [0; 4]);
    for seed in 0..files(2_000) {
        let mut rng = Rng::new(seed);
        let chart = tiny_chart(&mut rng);
        let set = rng.pick(&[1, 2, 4, 6, 8, 8, 10, 12, 14, 15]);
        let state = state_with(set, rng.percent(10).into());
        let mut out = [0; 10];
        let answer = plain::shortest_way(&chart, &state, &mut out);
        match all.iter().find(|list| ends(&chart, state, list)) {
            None => {
                assert_eq!(answer, Answer::new(55, 0, 0, 0), "seed {seed}");
                without += 1;
            }
            Some(list) => {
                let length = list.len();
                assert_eq!(answer, Answer::fine(length as u64, 0, 0), "seed {seed}");
                assert_eq!(out[..length], list[..], "seed {seed}");
                lengths[length] += 1;
            }
        }
    }
    assert!(
        without >= 100 && lengths.iter().all(|times| *times >= 10),
        "{without} {lengths:?}"
    );
}
