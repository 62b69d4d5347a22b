//! The examples of docs/REFUSALS.md: each is the weighbridge's file with some changes and calls, and
//! what the proved library and the plain checker then answer. Each number has one.
mod common;
mod followers;
mod proved;
mod removals;
use common::{first_body, of_the_repository, yard};
use followers::Follower;
use oracle::gen::expressions::{post_order, Shape};
use oracle::gen::lists::Call;
use oracle::gen::{relations, Yard, CHECK_REFUSALS};
use oracle::{plain, Answer};

const FILE: &str = "examples/weighbridge.yard";

fn page() -> String {
    String::from_utf8(of_the_repository("docs/REFUSALS.md")).expect("the page is text")
}

/// One example: the number of its heading, its changes and calls, and what is answered.
struct Example {
    number: u64,
    changes: Vec<String>,
    line: String,
}

/// The page's indented blocks, each with the heading above it.
fn examples() -> Vec<Example> {
    let (mut found, mut block, mut number) = (Vec::new(), Vec::new(), None);
    for line in page().lines().chain([""]) {
        if let Some(heading) = line.strip_prefix('#') {
            let title = heading.trim_start_matches('#');
            number = title.split(':').next().and_then(|n| n.trim().parse().ok());
        }
        if let Some(text) = line.strip_prefix("    ") {
            block.push(text.to_string());
        } else if let Some(line) = block.pop() {
            found.push(Example {
                number: number.unwrap_or_else(|| panic!("{line} has no heading with its number")),
                changes: std::mem::take(&mut block),
                line,
            });
        }
    }
    found
}

fn examples_of(number: u64) -> impl Iterator<Item = Example> {
    let all = examples().into_iter();
    all.filter(move |example| example.number == number)
}

fn bytes(text: &str) -> Vec<u8> {
    let byte = |pair| u8::from_str_radix(pair, 16).unwrap_or_else(|_| panic!("{text} is no bytes"));
    text.split_whitespace().map(byte).collect()
}

fn decimal(text: &str) -> usize {
    text.trim()
        .parse()
        .unwrap_or_else(|_| panic!("{text} is no number"))
}

/// Bytes, once or so many times.
fn repeated(text: &str) -> Vec<u8> {
    match text.split_once(',') {
        Some((new, times)) => {
            let times = times.strip_suffix("times").expect("how many times");
            bytes(new).repeat(decimal(times))
        }
        None => bytes(text),
    }
}

fn change(file: &mut Vec<u8>, change: &str) {
    let (word, rest) = change.split_once(' ').expect("a word and where");
    match word {
        "byte" => {
            let (at, new) = rest.split_once(':').expect("an offset and bytes");
            let (at, new) = (decimal(at), bytes(new));
            assert_ne!(file[at..at + new.len()], new, "{change} changes nothing");
            file[at..at + new.len()].copy_from_slice(&new);
        }
        "remove" => drop(file.remove(decimal(rest))),
        "insert" => {
            let (at, new) = rest.split_once(':').expect("an offset and bytes");
            let at = decimal(at);
            file.splice(at..at, repeated(new));
        }
        "cut" => file.truncate(decimal(rest.strip_prefix("to ").expect("cut to a length"))),
        "append" => file.extend(repeated(rest)),
        _ => panic!("{change} is no change"),
    }
}

/// Both checkers' one answer to a call that is lent so many bytes, and what it leaves there.
fn lent(
    length: usize,
    ours: impl Fn(&mut [u8]) -> Answer,
    theirs: impl Fn(&mut [u8]) -> Answer,
) -> (Answer, Vec<u8>) {
    let [mut left, mut other] = [(); 2].map(|()| vec![0xEE; length]);
    let answer = ours(&mut left);
    assert_eq!(theirs(&mut other), answer);
    assert_eq!(other, left);
    (answer, left)
}

/// The chart of the weighbridge's expression, in so many lent bytes.
fn written(length: usize) -> (Answer, Vec<u8>) {
    let file = of_the_repository(FILE);
    let nodes = first_body(&file);
    lent(
        length,
        |out| proved::write_chart(nodes, out),
        |out| plain::write_chart(nodes, out),
    )
}

/// The shortest way from a state over the file's chart, in so many lent bytes.
fn way(file: &[u8], state: &[u8], length: usize) -> (Answer, Vec<u8>) {
    let chart = yard(file).chart;
    lent(
        length,
        |out| proved::shortest_way(&chart, state, out),
        |out| plain::shortest_way(&chart, state, out),
    )
}

/// The expression for the file's chart and labels, in so many lent bytes.
fn expression(file: &[u8], length: usize) -> (Answer, Vec<u8>) {
    let Yard {
        chart, labelling, ..
    } = yard(file);
    lent(
        length,
        |out| proved::write_expression(&chart, &labelling, out),
        |out| plain::write_expression(&chart, &labelling, out),
    )
}

/// The answer of a call that has written nothing.
fn kept((answer, left): (Answer, Vec<u8>)) -> Answer {
    assert!(left.iter().all(|byte| *byte == 0xEE));
    answer
}

/// Takes a loop out of the file's chart.
fn taken(file: &[u8], pair: &str, standing: &mut [u8]) -> Answer {
    let (v, level) = pair.split_once(' ').expect("a vertex and a level");
    let pair = (decimal(v) as u64, decimal(level) as u64);
    removals::Trial::of(proved::remove).call(&yard(file), pair, standing, &"the page")
}

/// Takes several loops out of the file's chart together.
fn taken_together(file: &[u8], list: &str, standing: &mut [u8]) -> Answer {
    let Yard {
        chart, labelling, ..
    } = yard(file);
    let loops = repeated(list);
    let mut other = standing.to_vec();
    let answer = proved::remove_together(&chart, &labelling, &loops, standing);
    let plain = plain::remove_together(&chart, &labelling, &loops, &mut other);
    assert_eq!(plain, answer);
    assert_eq!(other, standing);
    answer
}

/// A call of the follower over the file's chart.
fn followed(file: &[u8], call: Call, state: &mut [u8]) -> Answer {
    let library = Follower {
        restart: proved::restart,
        event: proved::event,
        write_chart: proved::write_chart,
    };
    followers::Trial::of(library).call(call, &yard(file).chart, state, &"the page")
}

/// What an example's lines make of the file and of the follower's state, and what the last call answers.
struct Left {
    file: Vec<u8>,
    state: Vec<u8>,
    last: Option<Answer>,
}

fn left_by(lines: &[String]) -> Left {
    let mut file = of_the_repository(FILE);
    let mut standing = vec![1; yard(&file).labelling.len()];
    let mut state = vec![0; 17];
    let mut last = None;
    for line in lines {
        assert!(!last.is_some_and(|answer: Answer| answer.is_refusal()));
        match line.split_once(' ') {
            Some(("take", pair)) => last = Some(taken(&file, pair, &mut standing)),
            Some(("together", list)) => last = Some(taken_together(&file, list, &mut standing)),
            Some(("standing", rest)) => change(&mut standing, rest),
            Some(("event", action)) => {
                let call = Call::Event(decimal(action).try_into().expect("an action"));
                last = Some(followed(&file, call, &mut state));
            }
            None if line == "restart" => last = Some(followed(&file, Call::Restart, &mut state)),
            Some(("state", rest)) => change(&mut state, rest),
            Some(("lend", lent)) => last = Some(kept(written(decimal(lent)))),
            Some(("way", lent)) => last = Some(kept(way(&file, &state, decimal(lent)))),
            Some(("expression", lent)) => last = Some(kept(expression(&file, decimal(lent)))),
            _ => change(&mut file, line),
        }
    }
    Left { file, state, last }
}

/// The numbers of the last call; where there is none, the line for the changed file.
fn answered(lines: &[String]) -> String {
    let Left { file, last, .. } = left_by(lines);
    if let Some(Answer { n, p, q, r }) = last {
        return format!("{n} {p} {q} {r}");
    }
    assert_eq!(proved::check(&file), plain::check(&file));
    proved::check(&file).to_string()
}

#[test]
fn each_example_is_answered_as_the_page_says() {
    for Example {
        number,
        changes,
        line,
    } in examples()
    {
        assert!(!changes.is_empty(), "{line} has no change");
        assert_eq!(answered(&changes), line, "{changes:?}");
        let numbers = line.strip_prefix("refused ").unwrap_or(&line);
        assert!(
            numbers.starts_with(&format!("{number} ")),
            "{line} under {number}"
        );
    }
}

#[test]
fn each_number_has_an_example() {
    let mut numbers: Vec<u64> = examples().iter().map(|example| example.number).collect();
    numbers.dedup();
    assert_eq!(
        numbers,
        [&CHECK_REFUSALS[..], &[50, 51, 52, 53, 54, 55, 56, 57, 58]].concat()
    );
}

/// The enum of the refusals in include/sequence.h has a name for each number of the page.
#[test]
fn each_number_has_a_name_in_the_header() {
    let header = String::from_utf8(of_the_repository("include/sequence.h")).expect("a text");
    let (_, names) = header.split_once("typedef enum seq_refusal {").unwrap();
    let (names, _) = names.split_once("} seq_refusal;").unwrap();
    let number = |line: &str| {
        let (_, number) = line.split_once(" = ")?;
        Some(decimal(number.trim_end_matches(',')) as u64)
    };
    let named: Vec<u64> = names.lines().filter_map(number).collect();
    let mut numbers: Vec<u64> = examples().iter().map(|example| example.number).collect();
    numbers.dedup();
    assert_eq!(named, numbers);
}

/// 3 for a record, and for a file that is none.
#[test]
fn each_cause_of_3_has_an_example() {
    let line = |first: &'static str| examples_of(3).any(|e| e.line.starts_with(first));
    assert!(line("refused 3 1 ") && line("refused 3 2 "));
}

/// 34 for a way out of the loop's own vertex, and for one from inside, with the loop that passes there.
#[test]
fn a_loop_that_begins_elsewhere_passes() {
    let inside = examples_of(34).nth(1).expect("a second example");
    let mut file = of_the_repository(FILE);
    for line in &inside.changes {
        change(&mut file, line);
    }
    assert_eq!(proved::check(&file).to_string(), inside.line);
    change(&mut file, "byte 126: 00");
    change(&mut file, "byte 120: 02 02");
    assert_eq!(proved::check(&file).n, 0);
}

/// 50 for the number of bytes and for a byte, 52 with each r.
#[test]
fn each_cause_of_50_and_52_has_an_example() {
    let cut = |e: &Example| e.changes[0].starts_with("standing cut");
    assert!(examples_of(50).any(|e| cut(&e)) && examples_of(50).any(|e| !cut(&e)));
    let ends = examples_of(52).filter_map(|e| e.line.chars().last());
    let mut broken: Vec<char> = ends.collect();
    broken.sort();
    assert_eq!(broken, ['1', '2', '3']);
}

fn last_is(example: &Example, call: &str) -> bool {
    let last = example.changes.last();
    last.is_some_and(|line| line.starts_with(call))
}

/// 53 for an empty set, for a vertex, for a mark, and for the number of bytes at an event and at a restart.
#[test]
fn each_cause_of_53_has_an_example() {
    let changed = |e: &Example, how| {
        let mut changes = e
            .changes
            .iter()
            .filter_map(|line| line.strip_prefix("state "));
        changes.any(|change| change.starts_with(how))
    };
    let long = |e: &Example| changed(e, "cut") || changed(e, "append");
    assert!(examples_of(53).any(|e| !changed(&e, "")));
    let other_mark = |e: &Example| changed(e, "byte 16:");
    assert!(examples_of(53).any(|e| changed(&e, "byte") && !other_mark(&e)));
    assert!(examples_of(53).any(|e| other_mark(&e)));
    for call in ["event", "restart"] {
        assert!(
            examples_of(53).any(|e| long(&e) && last_is(&e, call)),
            "{call}"
        );
    }
}

/// 54 for each call that writes to lent bytes.
#[test]
fn each_call_that_writes_has_an_example_of_54() {
    for call in ["lend", "way", "expression"] {
        assert!(examples_of(54).any(|e| last_is(&e, call)), "{call}");
    }
}

/// 55 for a set that leads nowhere, and for a spoilt run, with the end in its set and without it.
#[test]
fn each_cause_of_55_has_an_example() {
    let spoilt_and_ended = |e: Example| {
        let state = left_by(&e.changes).state;
        (state[16] == 1, state[0] & 1 == 1)
    };
    let causes: Vec<(bool, bool)> = examples_of(55).map(spoilt_and_ended).collect();
    for cause in [(false, false), (true, false), (true, true)] {
        assert!(causes.contains(&cause), "spoilt, ended: {cause:?}");
    }
}

/// 56 for an odd length, for too many loops, and for neither: a loop twice.
#[test]
fn each_cause_of_56_has_an_example() {
    let length = |e: Example| {
        let list = e.changes.last()?.strip_prefix("together ")?;
        Some(repeated(list).len())
    };
    let lengths: Vec<usize> = examples_of(56).filter_map(length).collect();
    for (odd, long) in [(true, false), (false, true), (false, false)] {
        let such = |length: &usize| (length % 2 == 1) == odd && (*length > 128) == long;
        assert!(lengths.iter().any(such), "odd {odd}, long {long}");
    }
}

/// 58's chart and labels pass with the page's expression: the sum of the ramps, then what they share, until closing.
#[test]
fn an_expression_by_hand_passes() {
    let example = examples_of(58).next().unwrap();
    let (call, changes) = example.changes.split_last().unwrap();
    assert!(call.starts_with("expression "));
    let mut file = of_the_repository(FILE);
    changes.iter().for_each(|line| change(&mut file, line));
    let action = Shape::Action;
    let ramps = [2, 8, 9, 10, 11, 12, 13, 14, 15].map(action);
    let ramps = ramps.into_iter().fold(action(1), Shape::sum);
    let weighed = Shape::product(Shape::star(action(3), action(4)), action(5));
    let lorry = Shape::product(ramps, Shape::product(weighed, action(6)));
    let mut yard = yard(&file);
    yard.expression = post_order(&Shape::star(lorry, action(7)));
    let expression = plain::expression_chart(&plain::read_nodes(&yard.expression).unwrap());
    let chart = plain::Chart::read(&yard.chart).unwrap();
    yard.relation = relations::bytes(&expression, &relations::greatest(&expression, &chart));
    assert_eq!(proved::check(&yard.file()).n, 0);
}

/// The transition that the page shows for 44, at the place that the example's line names.
#[test]
fn the_expression_s_transition_is_the_page_s() {
    let shown = "`0D 03 0B 00`";
    assert!(page().contains(shown));
    let example = examples_of(44).next().unwrap();
    let at = 4 + 4 * decimal(example.line.split(' ').last().unwrap());
    let (answer, chart) = written(9_000);
    assert_eq!(answer.n, 0);
    assert_eq!(bytes(shown.trim_matches('`')), chart[at..at + 4]);
}
