//! What the tests share.
#![allow(dead_code)]
use oracle::gen::lists::state_with;
use oracle::gen::{Rng, Yard};
use oracle::plain::{Chart, Transition};
use oracle::{fast, gen, plain, Answer};
use std::collections::BTreeMap;
use std::fmt::Debug;
use std::fs;
use std::path::Path;
use std::thread;

/// A test for each function that a module shares, of its name and with these
/// arguments.
#[allow(unused_macros)]
macro_rules! tests_of {
    ($module:ident: $($name:ident($($argument:expr),+);)+) => {
        $(#[test]
        fn $name() {
            $module::$name($($argument),+);
        })+
    };
}

/// How often each kind of answer was given.
#[derive(Debug)]
pub struct Seen<K>(BTreeMap<K, u64>);

impl<K> Default for Seen<K> {
    fn default() -> Seen<K> {
        Seen(BTreeMap::new())
    }
}

impl<K: Ord + Debug> Seen<K> {
    pub fn note(&mut self, kind: K) {
        *self.0.entry(kind).or_default() += 1;
    }

    pub fn all(&self) -> u64 {
        self.0.values().sum()
    }

    /// How often kinds like this were given.
    pub fn like(&self, kind: impl Fn(&K) -> bool) -> u64 {
        let such = self.0.iter().filter(|(given, _)| kind(given));
        such.map(|(_, times)| times).sum()
    }

    /// Just these kinds, each so often at least, and so many in all.
    pub fn are(&self, kinds: &[K], each: u64, all: u64) {
        assert!(self.0.keys().eq(kinds), "{self:?}");
        assert!(self.0.values().all(|times| *times >= each), "{self:?}");
        assert!(self.all() >= all, "{self:?}");
    }
}

/// Document 01's file G.
pub fn g() -> Yard {
    let mut relation = vec![0; 64];
    relation[0] = 0x01;
    relation[48] = 0x02;
    Yard {
        expression: vec![1, 1, 0, 0, 1, 2, 0, 0, 4, 0, 0, 1],
        chart: vec![2, 1, 2, 0, 1, 1, 1, 0, 1, 2, 0, 0],
        labelling: vec![1, 0],
        relation,
    }
}

/// Both checkers' one answer; says file, answers and seed where they differ.
pub fn both(file: &[u8], origin: &dyn std::fmt::Display) -> Answer {
    let (one, other) = (plain::check(file), fast::check(file));
    assert!(
        one == other,
        "{origin}: plain {one}, fast {other}\nfile {}",
        gen::hex(file)
    );
    one
}

/// How many files a test takes. ORACLE_FILES is a percentage of the usual:
/// 1000 makes a run ten times as long.
pub fn files(usual: u64) -> u64 {
    match std::env::var("ORACLE_FILES") {
        Ok(percent) => usual * percent.parse::<u64>().expect("ORACLE_FILES is a number") / 100,
        Err(_) => usual,
    }
}

/// A chart of these transitions (from, action, to).
pub fn chart(vertices: usize, start: usize, steps: &[(usize, u8, usize)]) -> Chart {
    let steps = steps
        .iter()
        .map(|&(from, action, to)| Transition { from, action, to });
    gen::charts::chart_of(vertices, start, steps.collect())
}

/// Document 01's chart of two loops, one inside the other.
pub fn two_loops() -> Chart {
    chart(3, 1, &[(1, 1, 2), (1, 3, 0), (2, 1, 2), (2, 2, 1)])
}

/// One of four vertices, of which one leads to two by one action.
pub fn four_vertices() -> Chart {
    let steps = [(1, 1, 1), (1, 1, 2), (1, 2, 0), (2, 1, 0), (2, 255, 3)];
    chart(4, 1, &steps)
}

/// The chart of an accepted file.
pub fn chart_of(yard: &Yard) -> Chart {
    Chart::read(&yard.chart).expect("an accepted file's chart")
}

/// A chart body cut off, or with another byte.
pub fn damage_chart(rng: &mut Rng, chart: &mut Vec<u8>) {
    let at = rng.below(chart.len());
    match rng.below(3) {
        0 => chart.truncate(at),
        1 => chart[0] = rng.word() as u8,
        _ => chart[at] = rng.word() as u8,
    }
}

/// Vertex 1 alone, unspoilt, as far as so many bytes go.
pub fn long_state(length: usize) -> Vec<u8> {
    let mut state = vec![0; length];
    state.iter_mut().take(1).for_each(|byte| *byte = 2);
    state
}

/// Vertices below a chart's V, mostly, and now and then all of them, none, or
/// any; any mark, and now and then another length.
pub fn some_state(rng: &mut Rng, chart: &[u8]) -> Vec<u8> {
    let vertices: usize = chart.first().copied().unwrap_or(0).clamp(2, 128).into();
    let set = match rng.below(20) {
        0 => 0,
        1 => (rng.word() as u128) << 64 | rng.word() as u128,
        2 => u128::MAX >> (128 - vertices),
        _ => (0..rng.between(1, 4)).fold(0, |set, _| {
            // Seldom V itself.
            let count = vertices + rng.percent(5) as usize;
            set | 1 << rng.below(count).min(127)
        }),
    };
    let mut state = state_with(set, some_mark(rng)).to_vec();
    if rng.percent(5) {
        state.resize(rng.pick(&[0, 1, 15, 16, 18, 32]), 0);
    }
    state
}

/// 0 mostly, 1 now and then, seldom another.
fn some_mark(rng: &mut Rng) -> u8 {
    match rng.below(20) {
        0 => rng.pick(&[2, 255]),
        1 => rng.word() as u8,
        2..=5 => 1,
        _ => 0,
    }
}

/// Marks that pass, and some that don't.
pub const MARKS: [u8; 4] = [0, 1, 2, 255];

/// Each set of eight vertices with some marks, each single vertex of 128, spoilt
/// or not, each mark, and each length of a state up to 40.
pub fn all_states() -> Vec<Vec<u8>> {
    let mut states: Vec<Vec<u8>> = (0..40).map(long_state).collect();
    let mut marked = |set, mark| states.push(state_with(set, mark).to_vec());
    for mark in MARKS {
        (0..=255).for_each(|set| marked(set, mark));
    }
    for mark in [0, 1] {
        (0..128).for_each(|v| marked(1 << v, mark));
    }
    (0..=255).for_each(|mark| marked(1 << 1, mark));
    states
}

/// Lists of so many of these, in their order.
pub fn all_lists<T: Copy>(of: &[T], length: usize) -> Vec<Vec<T>> {
    let mut lists = vec![Vec::new()];
    for _ in 0..length {
        let longer = |list: Vec<T>| of.iter().map(move |x| [&list[..], &[*x]].concat());
        lists = lists.into_iter().flat_map(longer).collect();
    }
    lists
}

/// What lent bytes hold before a call.
pub fn pattern(length: usize) -> Vec<u8> {
    let mut rng = Rng::new(length as u64);
    (0..length).map(|_| rng.word() as u8).collect()
}

/// What the first record holds, as far as the file goes.
pub fn first_body(file: &[u8]) -> &[u8] {
    let Some((length, rest)) = file.split_first_chunk::<2>() else {
        return &[];
    };
    let body = rest.get(2..).unwrap_or(&[]);
    &body[..body.len().min(u16::from_le_bytes(*length).into())]
}

/// What calls answer in so many KiB of stack. The thread's own needs are among
/// them, so the calls have somewhat less.
pub fn in_a_stack<T: Send + 'static>(kib: usize, calls: impl FnOnce() -> T + Send + 'static) -> T {
    let thread = thread::Builder::new().stack_size(kib * 1024).spawn(calls);
    thread.expect("a thread").join().expect("answers")
}

/// A file of the repository.
pub fn of_the_repository(name: &str) -> Vec<u8> {
    let path = Path::new(env!("CARGO_MANIFEST_DIR")).join("..").join(name);
    fs::read(&path).unwrap_or_else(|error| panic!("{}: {error}", path.display()))
}

/// The bodies of a file of four records.
pub fn yard(file: &[u8]) -> Yard {
    let bodies = plain::read_records(file).expect("four records");
    let [expression, chart, labelling, relation] = bodies.map(<[u8]>::to_vec);
    Yard {
        expression,
        chart,
        labelling,
        relation,
    }
}
