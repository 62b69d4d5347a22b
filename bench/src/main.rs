//! The proved check, removals, follower, shortest way and expression of a chart against the second
//! checker's fast ones, on the same bytes in the same run.
//!
//! * `bench times` prints a row for each kind of file: microseconds a check of both, and their ratio
//!   over several runs; `bench removals` such a row for each removal, `bench together` for each list
//!   of loops, `bench follower` for each call of the follower, `bench way` for each shortest way,
//!   `bench expressions` for charts and labels of the mixed corpus and for each expression of a chart.
//! * `bench singly` prints such a row for each list of loops: the proved call for the list, and the
//!   proved removals of its loops one after another.
//! * `bench stages` prints such a row for the files of the mixed corpus that have the same number in
//!   their answer.
//! * `bench calls WHO FILE COUNT` makes the call of a file COUNT times, for callgrind to count, or
//!   those of a corpus one after another.
//! * `bench write FOLDER` writes the named files, removals, lists of loops, calls of the follower,
//!   shortest ways and expressions of charts, and the corpora.
use oracle::gen::lists::{self, State};
use oracle::gen::worst::{self, Extraction, FollowerCall, Removal, TogetherCall, WayCall};
use oracle::gen::{self, Yard};
use oracle::{fast, plain, Answer};
use std::collections::BTreeMap;
use std::hint::black_box;
use std::time::Instant;
use std::{env, fs, iter, process};

#[path = "../../oracle/tests/proved/mod.rs"]
mod proved;

/// What both sides are called with.
enum Call {
    Check(Vec<u8>),
    Remove {
        removal: Removal,
        /// Those that stand, which a removal that is done clears.
        entries: Vec<usize>,
    },
    Together {
        made: TogetherCall,
        /// The bytes that are lent.
        standing: Vec<u8>,
    },
    Follow {
        made: FollowerCall,
        /// The bytes that are lent.
        state: State,
    },
    Way {
        made: WayCall,
        /// The bytes that are lent.
        out: [u8; LONGEST_WAY],
    },
    Extract {
        made: Extraction,
        /// The bytes that are lent.
        out: [u8; LONGEST_EXPRESSION],
    },
}

/// No list of events is longer.
const LONGEST_WAY: usize = 127;
/// No expression body is longer.
const LONGEST_EXPRESSION: usize = 508;

impl Call {
    fn remove(removal: Removal) -> Call {
        let stands = |index: &usize| removal.standing[*index] == 1;
        let entries = removal.entries().into_iter().filter(stands).collect();
        Call::Remove { removal, entries }
    }

    fn together(made: TogetherCall) -> Call {
        let standing = made.standing.clone();
        Call::Together { made, standing }
    }

    fn follow(made: FollowerCall) -> Call {
        let state = made.state;
        Call::Follow { made, state }
    }

    fn way(made: WayCall) -> Call {
        let out = [0; LONGEST_WAY];
        Call::Way { made, out }
    }

    fn extract(made: Extraction) -> Call {
        let out = [0; LONGEST_EXPRESSION];
        Call::Extract { made, out }
    }

    /// The bytes of a file; those of a removal are its vertex, its level, and its chart, labels and
    /// standing bytes; those of a list of loops are its length, the list, and its chart, labels and
    /// standing bytes; those of a call of the follower are 1 for an event or 0, its action, the state
    /// and the chart; those of a shortest way are the state, the lent bytes and the chart; those of an
    /// expression of a chart are a file with the lent bytes as its first record, and an empty last one.
    fn bytes(&self) -> Vec<u8> {
        match self {
            Call::Check(file) => file.clone(),
            Call::Remove { removal, .. } => {
                let pair = [removal.vertex, removal.level];
                [
                    &pair,
                    &removal.chart[..],
                    &removal.labels,
                    &removal.standing,
                ]
                .concat()
            }
            Call::Together { made, standing } => {
                let length = [made.loops.len() as u8];
                [
                    &length,
                    &made.loops[..],
                    &made.chart,
                    &made.labels,
                    standing,
                ]
                .concat()
            }
            Call::Follow { made, state } => {
                let call = match made.call {
                    lists::Call::Restart => [0, 0],
                    lists::Call::Event(action) => [1, action],
                };
                [&call[..], state, &made.chart].concat()
            }
            Call::Way { made, out } => [&made.state[..], out, &made.chart].concat(),
            Call::Extract { made, out } => {
                let yard = Yard {
                    expression: out.to_vec(),
                    chart: made.chart.clone(),
                    labelling: made.labels.clone(),
                    relation: Vec::new(),
                };
                yard.file()
            }
        }
    }

    /// The one call of a file, or those of a corpus.
    fn read(path: &str) -> Vec<Call> {
        let file = fs::read(path).expect("a file");
        let call = match path.rsplit('.').next() {
            Some("corpus") => return files_of(&file).map(Call::Check).collect(),
            Some("expressions") => return files_of(&file).filter_map(Call::read_extract).collect(),
            Some("removal") => Call::read_removal(&file),
            Some("together") => Call::read_together(&file),
            Some("follower") => Call::read_follow(&file),
            Some("way") => Call::read_way(&file),
            Some("expression") => Call::read_extract(file).expect("four records"),
            _ => Call::Check(file),
        };
        vec![call]
    }

    fn read_follow(file: &[u8]) -> Call {
        let (state, chart) = file[2..].split_first_chunk().expect("a state");
        Call::follow(FollowerCall {
            chart: chart.to_vec(),
            state: *state,
            call: match file[0] {
                0 => lists::Call::Restart,
                _ => lists::Call::Event(file[1]),
            },
        })
    }

    fn read_way(file: &[u8]) -> Call {
        let (state, rest) = file.split_first_chunk().expect("a state");
        Call::way(WayCall {
            chart: rest[LONGEST_WAY..].to_vec(),
            state: *state,
        })
    }

    /// The chart and the labels of a yard file; none where its records are refused.
    fn read_extract(file: Vec<u8>) -> Option<Call> {
        let [_, chart, labels, _] = plain::read_records(&file).ok()?;
        Some(Call::extract(Extraction {
            chart: chart.to_vec(),
            labels: labels.to_vec(),
        }))
    }

    fn read_removal(file: &[u8]) -> Call {
        let (pair, marked) = file.split_at(2);
        let [chart, labels, standing] = marked_chart(marked);
        Call::remove(Removal {
            chart,
            labels,
            vertex: pair[0],
            level: pair[1],
            standing,
        })
    }

    fn read_together(file: &[u8]) -> Call {
        let (loops, marked) = file[1..].split_at(file[0].into());
        let [chart, labels, standing] = marked_chart(marked);
        Call::together(TogetherCall {
            chart,
            labels,
            loops: loops.to_vec(),
            standing,
        })
    }
}

/// A chart, and its labels and standing bytes after it.
fn marked_chart(bytes: &[u8]) -> [Vec<u8>; 3] {
    let count = usize::from(u16::from_le_bytes([bytes[2], bytes[3]]));
    let (chart, marks) = bytes.split_at(4 + 4 * count);
    let (labels, standing) = marks.split_at(count);
    [chart, labels, standing].map(<[u8]>::to_vec)
}

/// The files of a corpus, each with its length in four bytes before it.
fn files_of(mut corpus: &[u8]) -> impl Iterator<Item = Vec<u8>> + '_ {
    iter::from_fn(move || {
        let (length, rest) = corpus.split_first_chunk()?;
        let (file, others) = rest.split_at(u32::from_le_bytes(*length) as usize);
        corpus = others;
        Some(file.to_vec())
    })
}

fn corpus_of(calls: &[Call]) -> Vec<u8> {
    let files = calls.iter().map(Call::bytes);
    let with_length = |file: Vec<u8>| [&(file.len() as u32).to_le_bytes()[..], &file].concat();
    files.flat_map(with_length).collect()
}

/// One of the two that are measured.
#[derive(Clone, Copy)]
struct Side {
    name: &'static str,
    check: fn(&[u8]) -> Answer,
    remove: fn(&[u8], &[u8], u64, u64, &mut [u8]) -> Answer,
    remove_together: fn(&[u8], &[u8], &[u8], &mut [u8]) -> Answer,
    restart: fn(&[u8], &mut [u8]) -> Answer,
    event: fn(&[u8], &mut [u8], u8) -> Answer,
    shortest_way: fn(&[u8], &[u8], &mut [u8]) -> Answer,
    write_expression: fn(&[u8], &[u8], &mut [u8]) -> Answer,
}

const PROVED: Side = Side {
    name: "proved",
    check: proved::check,
    remove: proved::remove,
    remove_together: proved::remove_together,
    restart: proved::restart,
    event: proved::event,
    shortest_way: proved::shortest_way,
    write_expression: proved::write_expression,
};
const RUST: Side = Side {
    name: "Rust",
    check: fast::check,
    remove: fast::remove,
    remove_together: fast::remove_together,
    restart: fast::restart_lent,
    event: fast::event_lent,
    shortest_way: fast::shortest_way,
    write_expression: fast::write_expression,
};

const SINGLY: Side = Side {
    name: "singly",
    remove_together: singly,
    ..PROVED
};

/// A removal for each loop of a list, over what the one before left; the last one's answer.
fn singly(chart: &[u8], labels: &[u8], loops: &[u8], standing: &mut [u8]) -> Answer {
    let pairs = loops.chunks_exact(2);
    pairs.fold(Answer::fine(0, 0, 0), |_, pair| {
        proved::remove(chart, labels, pair[0].into(), pair[1].into(), standing)
    })
}

impl Side {
    /// Before a removal its entries are set to 1 again, before a list of loops the standing bytes and
    /// before a call of the follower its state are what they were, before a shortest way and an
    /// expression of a chart the lent bytes are 0.
    fn answer(self, call: &mut Call) -> Answer {
        match call {
            Call::Check(file) => (self.check)(file),
            Call::Remove { removal, entries } => {
                for &index in entries.iter() {
                    removal.standing[index] = 1;
                }
                let (vertex, level) = (removal.vertex.into(), removal.level.into());
                let standing = &mut removal.standing;
                (self.remove)(&removal.chart, &removal.labels, vertex, level, standing)
            }
            Call::Together { made, standing } => {
                standing.copy_from_slice(&made.standing);
                (self.remove_together)(&made.chart, &made.labels, &made.loops, standing)
            }
            Call::Follow { made, state } => {
                *state = made.state;
                match made.call {
                    lists::Call::Restart => (self.restart)(&made.chart, state),
                    lists::Call::Event(action) => (self.event)(&made.chart, state, action),
                }
            }
            Call::Way { made, out } => {
                *out = [0; LONGEST_WAY];
                (self.shortest_way)(&made.chart, &made.state, out)
            }
            Call::Extract { made, out } => {
                *out = [0; LONGEST_EXPRESSION];
                (self.write_expression)(&made.chart, &made.labels, out)
            }
        }
    }
}

const RUNS: usize = 31;
/// Seconds that one side is timed for in one run, at least.
const SPAN: f64 = 0.02;
const MIXED: u64 = 2_000;
/// No file is longer in the corpus of small ones.
const SMALL: usize = 800;

/// The yard with one transition more, in its place.
fn with_transition(mut yard: Yard, transition: [u8; 3], label: u8) -> Yard {
    let steps = yard.chart[4..].chunks_exact(4);
    let index = steps.take_while(|step| step[..3] < transition[..]).count();
    let [from, action, to] = transition;
    let at = 4 + 4 * index;
    yard.chart.splice(at..at, [from, action, to, 0]);
    yard.labelling.insert(index, label);
    let count = yard.labelling.len() as u16;
    yard.chart[2..4].copy_from_slice(&count.to_le_bytes());
    yard
}

/// The yard whose last transition has another action.
fn with_last_action(mut yard: Yard, action: u8) -> Yard {
    let at = yard.chart.len() - 3;
    yard.chart[at] = action;
    yard
}

/// The yard with a row of its relation emptied: the one by which 44 refuses the latest pair.
fn with_empty_row(yard: Yard) -> Yard {
    // The last row is the start's, which 42 asks for.
    let rows = yard.relation.len() / 16 - 1;
    let emptied = (1..rows).map(|u| {
        let mut changed = yard.clone();
        changed.relation[16 * u..16 * u + 16].fill(0);
        let answer = fast::check(&changed.file());
        (answer, changed)
    });
    let refused = emptied.filter(|(answer, _)| answer.n == 44);
    let (_, latest) = refused.max_by_key(|(answer, _)| answer.p).expect("some");
    latest
}

/// Document 01's file G and that of the weighbridge, as they stand in the examples.
const EXAMPLES: [(&str, &[u8]); 2] = [
    ("G", include_bytes!("../../examples/g.yard")),
    (
        "weighbridge",
        include_bytes!("../../examples/weighbridge.yard"),
    ),
];

/// The examples, and files at document 01's limits: accepted ones, each hard on one stage of the
/// check, and some that are refused at the end of such a stage.
fn named() -> Vec<(String, Call)> {
    let mut calls = calls_of(EXAMPLES.to_vec(), |file| Call::Check(file.to_vec()));
    calls.extend(calls_of(yards(), |yard| Call::Check(yard.file())));
    calls
}

fn yards() -> Vec<(&'static str, Yard)> {
    let mut yards = worst::all();
    yards.push(("refused 21", with_last_action(worst::full_relation(), 0)));
    yards.push((
        "refused 32",
        with_transition(worst::many_vertices(), [127, 1, 127], 0),
    ));
    yards.push((
        "refused 33",
        with_transition(worst::thousands_of_loops(), [103, 48, 1], 255),
    ));
    // The last loop of that file is (103, 49).
    for (name, to) in [("refused 34", 0), ("refused 35", 102)] {
        let more = with_transition(worst::thousands_of_loops(), [103, 48, to], 49);
        yards.push((name, more));
    }
    // A loop at vertex 126, which the last loop of that file, (127, 253), leads to.
    yards.push((
        "refused 35 in dense layers",
        with_transition(worst::dense_layers(), [126, 2, 126], 255),
    ));
    yards.push(("refused 44", with_empty_row(worst::full_relation())));
    yards.push(("refused 45", with_last_action(worst::full_relation(), 2)));
    yards
}

fn removals() -> Vec<(String, Call)> {
    calls_of(worst::removals(), Call::remove)
}

fn lists_of_loops() -> Vec<(String, Call)> {
    calls_of(worst::together_calls(), Call::together)
}

fn follower_calls() -> Vec<(String, Call)> {
    calls_of(worst::follower_calls(), Call::follow)
}

fn ways() -> Vec<(String, Call)> {
    calls_of(worst::way_calls(), Call::way)
}

fn extractions() -> Vec<(String, Call)> {
    calls_of(worst::extractions(), Call::extract)
}

fn calls_of<T>(named: Vec<(&str, T)>, call: fn(T) -> Call) -> Vec<(String, Call)> {
    let named = named.into_iter();
    let call = |(name, what): (&str, T)| (name.replace(' ', "-"), call(what));
    named.map(call).collect()
}

/// Seconds for one round over the calls.
fn seconds(side: Side, calls: &mut [Call], rounds: u32) -> f64 {
    let start = Instant::now();
    for _ in 0..rounds {
        for call in &mut *calls {
            black_box(side.answer(black_box(call)));
        }
    }
    start.elapsed().as_secs_f64() / f64::from(rounds)
}

fn rounds(side: Side, calls: &mut [Call]) -> u32 {
    let once = seconds(side, calls, 1).max(1e-7);
    (SPAN / once).ceil() as u32
}

/// Both sides have to answer the same and to leave the same bytes. Of a list of loops that is refused
/// some may be taken out singly.
fn compare(name: &str, call: &mut Call, other: Side) {
    let ours = (PROVED.answer(call), call.bytes());
    let theirs = (other.answer(call), call.bytes());
    let may_differ = other.name == SINGLY.name && ours.0.is_refusal();
    assert!(may_differ || ours == theirs, "{name}: the answers differ");
}

fn row(name: &str, calls: &mut [Call], other: Side) {
    for call in &mut *calls {
        compare(name, call, other);
    }
    let (ours, theirs) = (rounds(PROVED, calls), rounds(other, calls));
    let mut ratios = Vec::new();
    let (mut best_ours, mut best_theirs) = (f64::MAX, f64::MAX);
    for _ in 0..RUNS {
        let a = seconds(PROVED, calls, ours);
        let b = seconds(other, calls, theirs);
        best_ours = best_ours.min(a);
        best_theirs = best_theirs.min(b);
        ratios.push(a / b);
    }
    ratios.sort_by(f64::total_cmp);
    let a_call = 1e6 / calls.len() as f64;
    println!(
        "| {name} | {:.2} | {:.2} | {:.2} | {:.2} to {:.2} |",
        best_ours * a_call,
        best_theirs * a_call,
        ratios[RUNS / 2],
        ratios[0],
        ratios[RUNS - 1],
    );
}

fn head(what: &str, other: Side) {
    let other = other.name;
    println!("| {what} | proved, µs | {other}, µs | ratio, median of {RUNS} | spread |");
    println!("|---|---|---|---|---|");
}

fn rows(calls: Vec<(String, Call)>, other: Side) {
    for (name, call) in calls {
        row(&name, &mut [call], other);
    }
}

fn table(what: &str, calls: Vec<(String, Call)>, other: Side) {
    head(what, other);
    rows(calls, other);
}

fn mixed() -> impl Iterator<Item = Vec<u8>> {
    (0..MIXED).map(gen::file)
}

/// Small files of the mixed corpus, all of them accepted.
fn small() -> impl Iterator<Item = Vec<u8>> {
    mixed().filter(|file| file.len() <= SMALL && !fast::check(file).is_refusal())
}

fn corpora() -> Vec<(String, Vec<Call>)> {
    vec![
        ("mixed-corpus".into(), mixed().map(Call::Check).collect()),
        (
            format!("accepted-up-to-{SMALL}-bytes"),
            small().map(Call::Check).collect(),
        ),
    ]
}

/// The charts and labels of the mixed corpus, all of them and those whose expression is written.
fn mixed_extractions() -> Vec<(String, Vec<Call>)> {
    let all = || mixed().filter_map(Call::read_extract);
    let is_written = |call: &mut Call| !RUST.answer(call).is_refusal();
    let written = all().filter_map(|mut call| is_written(&mut call).then_some(call));
    vec![
        ("mixed-corpus".into(), all().collect()),
        ("written".into(), written.collect()),
    ]
}

fn stages() {
    head("files", RUST);
    let mut by_number: BTreeMap<u64, Vec<Call>> = BTreeMap::new();
    for file in mixed() {
        let number = fast::check(&file).n;
        by_number.entry(number).or_default().push(Call::Check(file));
    }
    for (number, mut calls) in by_number {
        row(&number.to_string(), &mut calls, RUST);
    }
}

fn times() {
    head("files", RUST);
    for (name, mut calls) in corpora() {
        row(&name, &mut calls, RUST);
    }
    rows(named(), RUST);
}

fn expressions() {
    head("charts", RUST);
    for (name, mut calls) in mixed_extractions() {
        row(&name, &mut calls, RUST);
    }
    rows(extractions(), RUST);
}

fn calls(who: &str, path: &str, count: u32) {
    let side = match who {
        "proved" => PROVED,
        "singly" => SINGLY,
        _ => RUST,
    };
    seconds(side, &mut Call::read(path), count);
}

fn write(folder: &str) {
    for (extension, calls) in [
        ("yard", named()),
        ("removal", removals()),
        ("together", lists_of_loops()),
        ("follower", follower_calls()),
        ("way", ways()),
        ("expression", extractions()),
    ] {
        for (name, call) in calls {
            let path = format!("{folder}/{name}.{extension}");
            fs::write(path, call.bytes()).expect("the file is written");
        }
    }
    for (extension, corpora) in [("corpus", corpora()), ("expressions", mixed_extractions())] {
        for (name, calls) in corpora {
            let path = format!("{folder}/{name}.{extension}");
            fs::write(path, corpus_of(&calls)).expect("the file is written");
        }
    }
}

fn main() {
    let words: Vec<String> = env::args().skip(1).collect();
    let words: Vec<&str> = words.iter().map(String::as_str).collect();
    match words[..] {
        ["times"] => times(),
        ["removals"] => table("removals", removals(), RUST),
        ["together"] => table("lists", lists_of_loops(), RUST),
        ["singly"] => table("lists", lists_of_loops(), SINGLY),
        ["follower"] => table("calls", follower_calls(), RUST),
        ["way"] => table("ways", ways(), RUST),
        ["expressions"] => expressions(),
        ["stages"] => stages(),
        ["calls", who, path, count] => calls(who, path, count.parse().expect("a number")),
        ["write", folder] => write(folder),
        _ => {
            eprintln!(
                "bench times | removals | together | singly | follower | way | expressions | stages | calls WHO FILE COUNT | write FOLDER"
            );
            process::exit(2);
        }
    }
}
