use std::fmt;

/// What a call answers, as document 01 counts it: `n` is the refusal's number
/// and `p`, `q`, `r` its places, unused ones 0. Where nothing is refused `n`
/// is 0 and the places hold:
///
/// * check: V, T and the number of loops;
/// * expression's chart, or an expression of a chart: its length in bytes, 0, 0;
/// * removal of a loop, or of several together ("done"): 0, 0, 0;
/// * follower: the word (`TAKEN`, `NOT_POSSIBLE` or `SPOILT`), 1 where the end is
///   in the set, the number of different actions offered; 0, 0 after `SPOILT`;
/// * shortest way: the number of its events, 0, 0.
#[derive(Clone, Copy, PartialEq, Eq, PartialOrd, Ord, Hash, Debug)]
#[repr(C)]
pub struct Answer {
    pub n: u64,
    pub p: u64,
    pub q: u64,
    pub r: u64,
}

/// The follower's word for an event with a target.
pub const TAKEN: u64 = 1;
/// The follower's word for an event without one, which spoils the run.
pub const NOT_POSSIBLE: u64 = 0;
/// The follower's word for every event after that, until a restart.
pub const SPOILT: u64 = 2;

impl Answer {
    pub const fn new(n: u64, p: u64, q: u64, r: u64) -> Answer {
        Answer { n, p, q, r }
    }

    /// Nothing refused.
    pub const fn fine(p: u64, q: u64, r: u64) -> Answer {
        Answer::new(0, p, q, r)
    }

    pub const fn is_refusal(&self) -> bool {
        self.n != 0
    }
}

/// The program's line for a check.
impl fmt::Display for Answer {
    fn fmt(&self, f: &mut fmt::Formatter<'_>) -> fmt::Result {
        let Answer { n, p, q, r } = *self;
        if n == 0 {
            write!(f, "accepted {p} {q} {r}")
        } else {
            write!(f, "refused {n} {p} {q} {r}")
        }
    }
}
