//! The fast follower, lent and by value, against the plain one and the published
//! rules'.
#[macro_use]
mod common;
mod followers;
use followers::{Follower, FAST};
use oracle::gen::lists::State;
use oracle::{fast, plain, Answer};

const BY_VALUE: Follower = Follower {
    restart,
    event,
    ..FAST
};

/// A refused restart hands back the empty set, unspoilt.
fn restart(chart: &[u8], state: &mut [u8]) -> Answer {
    let (answer, after) = fast::restart(chart);
    assert_eq!((answer, after), in_bytes(plain::restart(chart)));
    match <&mut State>::try_from(&mut *state) {
        Err(_) => return fast::restart_lent(chart, state),
        Ok(_) if answer.is_refusal() => assert_eq!(after, [0; 17]),
        Ok(state) => *state = after,
    }
    answer
}

fn event(chart: &[u8], state: &mut [u8], action: u8) -> Answer {
    let Some(before) = plain::State::read(state) else {
        return fast::event_lent(chart, state, action);
    };
    let (answer, after) = fast::event(chart, before.bytes(), action);
    let plain = plain::event(chart, before, action);
    assert_eq!((answer, after), in_bytes(plain));
    state.copy_from_slice(&after);
    answer
}

fn in_bytes((answer, state): (Answer, plain::State)) -> (Answer, State) {
    (answer, state.bytes())
}

tests_of! { followers:
    lists_against_the_rules(FAST, 7_000_000);
    another_action_is_found_out(FAST, 8_000_000);
    spoilt_until_a_restart(FAST, 8_500_000);
    any_bytes(FAST, 9_000_000);
    all_of_a_small_chart(FAST);
    order_of_refusals(FAST);
    at_the_limits(FAST);
}

#[test]
fn by_value() {
    followers::any_bytes(BY_VALUE, 9_500_000);
    followers::all_of_a_small_chart(BY_VALUE);
    followers::spoilt_until_a_restart(BY_VALUE, 9_700_000);
    followers::order_of_refusals(BY_VALUE);
}

/// What a refused restart hands back is refused 53 by the next event, over any
/// chart, until a restart that is taken.
#[test]
fn after_a_restart_that_is_refused() {
    let chart = common::g().chart;
    for (damaged, refusal) in [
        (&chart[..3], Answer::new(20, 0, 0, 0)),
        (&[2, 1, 1, 0, 1, 0, 0, 0][..], Answer::new(21, 0, 0, 0)),
    ] {
        assert_eq!(plain::restart(damaged), (refusal, plain::State::EMPTY));
        let (answer, state) = fast::restart(damaged);
        assert_eq!((answer, state), (refusal, [0; 17]));
        let refused = (Answer::new(53, 0, 0, 0), state);
        assert_eq!(fast::event(&chart, state, 1), refused);
        let (_, fresh) = fast::restart(&chart);
        assert_eq!(fast::event(&chart, fresh, 1).0.n, 0);
    }
}
