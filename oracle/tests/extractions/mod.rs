//! Some extraction of an expression held against the plain one, in lent bytes of
//! every length that matters. What is written is also taken apart by the request's
//! words, and a relation is searched for with which it makes an accepted file.
#![allow(dead_code)]
use crate::common::{both, chart, files, g, of_the_repository, pattern, two_loops, yard, Seen};
use crate::removals::{accepted, labelled};
use oracle::gen::charts::reached_part;
use oracle::gen::expressions::{post_order, Shape};
use oracle::gen::worst::{self, Extraction};
use oracle::gen::{self, labels, relations, Rng, Yard};
use oracle::plain::{self, Chart, Node, Transition};
use oracle::{fast, Answer};
use std::fmt::Display;

/// The call, which takes a chart, labels and lent bytes, and the check beside it.
#[derive(Clone, Copy)]
pub struct Calls {
    pub write_expression: fn(&[u8], &[u8], &mut [u8]) -> Answer,
    pub check: fn(&[u8]) -> Answer,
}

pub const PLAIN: Calls = Calls {
    write_expression: plain::write_expression,
    check: plain::check,
};

pub const FAST: Calls = Calls {
    write_expression: fast::write_expression,
    check: fast::check,
};

/// An answer, and the table that it says is written.
type Written = (Answer, Vec<u8>);

/// More bytes than any table has.
const ROOM: usize = 520;

const MOST_LEAVES: u128 = 64;

fn table_of(shape: &Shape) -> Written {
    let table = post_order(shape);
    (Answer::fine(table.len() as u64, 0, 0), table)
}

fn refusal(n: u64, p: usize) -> Written {
    (Answer::new(n, p as u64, 0, 0), Vec::new())
}

/// A table that is to be the start's text.
struct Table<'a> {
    chart: &'a Chart,
    labels: &'a [u8],
    nodes: &'a [Node],
}

impl Table<'_> {
    /// Whether a node is the text of w back to a vertex, the end for plain texts.
    fn is_text(&self, node: usize, w: usize, back: usize) -> bool {
        let transitions = |entries: bool| {
            let all = self.chart.leaving(w);
            let such = all.filter(|&index| (self.labels[index] != 0) == entries);
            such.map(|index| self.chart.transitions[index])
                .collect::<Vec<_>>()
        };
        match self.nodes[node] {
            Node::Star(left, right) => {
                self.is_sum(left, &transitions(true), w)
                    && self.is_sum(right, &transitions(false), back)
            }
            _ => false,
        }
    }

    fn is_sum(&self, node: usize, of: &[Transition], back: usize) -> bool {
        match (of, self.nodes[node]) {
            ([], node) => node == Node::Deadlock,
            ([one], _) => self.is_item(node, one, back),
            ([before @ .., last], Node::Sum(left, right)) => {
                self.is_sum(left, before, back) && self.is_item(right, last, back)
            }
            _ => false,
        }
    }

    fn is_item(&self, node: usize, t: &Transition, back: usize) -> bool {
        let action = Node::Action(t.action);
        match self.nodes[node] {
            Node::Product(left, right) => {
                t.to != back && self.nodes[left] == action && self.is_text(right, t.to, back)
            }
            other => t.to == back && other == action,
        }
    }

    /// Whether the nodes of each left part come first, then those of the right
    /// part, then the node itself.
    fn is_left_part_first(&self) -> bool {
        // The lowest node of each one's part.
        let mut first: Vec<usize> = Vec::new();
        for (number, node) in self.nodes.iter().enumerate() {
            first.push(match node.operands() {
                None => number,
                Some((l, r)) if r + 1 == number && l + 1 == first[r] => first[l],
                Some(_) => return false,
            });
        }
        first.last() == Some(&0)
    }
}

/// A call that is tried, and how often it gave each number.
pub struct Trial {
    calls: Calls,
    seen: Seen<u64>,
    /// How many tables were held against their chart.
    tables: u64,
}

impl Trial {
    pub fn of(calls: Calls) -> Trial {
        Trial {
            calls,
            seen: Seen::default(),
            tables: 0,
        }
    }

    /// What is written to so many lent bytes; the others are kept.
    fn run(&mut self, yard: &Yard, lent: usize, origin: &dyn Display) -> Written {
        let before = pattern(lent);
        let mut out = before.clone();
        let answer = (self.calls.write_expression)(&yard.chart, &yard.labelling, &mut out);
        let length = if answer.n == 0 { answer.p as usize } else { 0 };
        assert!(
            length <= lent && out[length..] == before[length..],
            "{origin}: {answer:?}\nchart {}\nlabels {}\nbefore {}\nafter {}",
            gen::hex(&yard.chart),
            gen::hex(&yard.labelling),
            gen::hex(&before),
            gen::hex(&out)
        );
        self.seen.note(answer.n);
        out.truncate(length);
        (answer, out)
    }

    /// What both calls write to so many lent bytes.
    pub fn call(&mut self, yard: &Yard, lent: usize, origin: &dyn Display) -> Written {
        let tried = self.run(yard, lent, origin);
        let plain = Trial::of(PLAIN).run(yard, lent, origin);
        assert!(
            tried == plain,
            "{origin}, {lent} bytes lent: plain {plain:?}, the other {tried:?}\nchart {}\nlabels {}",
            gen::hex(&yard.chart),
            gen::hex(&yard.labelling)
        );
        tried
    }

    /// What both calls write to enough lent bytes. To just as many, to more and to
    /// fewer the tried one then writes the same or refuses 54; where something else
    /// is refused, it is in no bytes too.
    fn lengths(&mut self, yard: &Yard, origin: &dyn Display) -> Written {
        let written = self.call(yard, ROOM, origin);
        let needed = written.1.len();
        if written.0.is_refusal() {
            assert_eq!(self.run(yard, 0, origin), written, "{origin}");
            return written;
        }
        for lent in [0, 1, needed - 4, needed - 1, needed, needed + 1, needed + 4] {
            let wanted = if lent < needed {
                refusal(54, needed)
            } else {
                written.clone()
            };
            assert_eq!(self.run(yard, lent, origin), wanted, "{origin}");
        }
        self.hold(yard, &written.1, origin);
        written
    }

    /// A table is the start's text, and makes an accepted file with a relation.
    fn hold(&mut self, yard: &Yard, table: &[u8], origin: &dyn Display) {
        let nodes = plain::read_nodes(table);
        let nodes = nodes.unwrap_or_else(|refusal| panic!("{origin}: {refusal}"));
        let chart = Chart::read(&yard.chart).expect("a chart that passes");
        let labels = &yard.labelling;
        let text = Table {
            chart: &chart,
            labels,
            nodes: &nodes,
        };
        assert!(
            text.is_text(nodes.len() - 1, chart.start, 0) && text.is_left_part_first(),
            "{origin}: {}\nchart {}\nlabels {}",
            gen::hex(table),
            gen::hex(&yard.chart),
            gen::hex(labels)
        );
        let file = with_relation(&chart, labels, table, &nodes, origin).file();
        let loops = plain::loops(&chart, labels).len();
        let counts = [chart.vertices, labels.len(), loops];
        let [v, t, l] = counts.map(|count| count as u64);
        let answers = [both(&file, origin), (self.calls.check)(&file)];
        assert!(
            answers == [Answer::fine(v, t, l); 2],
            "{origin}: {answers:?}\nfile {}",
            gen::hex(&file)
        );
        self.tables += 1;
    }
}

/// The file of a table and a chart, with all pairs that are bisimilar: these pass
/// 40 to 45 wherever some relation does.
fn with_relation(
    chart: &Chart,
    labels: &[u8],
    table: &[u8],
    nodes: &[Node],
    origin: &dyn Display,
) -> Yard {
    let expression = plain::expression_chart(nodes);
    let pairs = relations::greatest(&expression, chart);
    let relation = relations::bytes(&expression, &pairs);
    let read = plain::read_relation(&relation, &expression, chart);
    let passes = read.and_then(|pairs| plain::check_relation(&expression, chart, &pairs));
    assert_eq!(passes, Ok(()), "{origin}: {}", gen::hex(table));
    assert!(
        plain::is_bisimulation(&expression, chart, &pairs),
        "{origin}"
    );
    Yard {
        expression: table.to_vec(),
        chart: chart.bytes(),
        labelling: labels.to_vec(),
        relation,
    }
}

/// A chart and labels; all else plays no part.
fn yard_of(made: Extraction) -> Yard {
    Yard {
        chart: made.chart,
        labelling: made.labels,
        ..g()
    }
}

/// The charts and labels of accepted files.
pub fn accepted_files(calls: Calls, first: u64) {
    let mut trial = Trial::of(calls);
    let mut largest = 0;
    for (seed, yard) in accepted(first, files(2_500)) {
        let (_, table) = trial.lengths(&yard, &seed);
        largest = largest.max(table.len());
    }
    assert_eq!(largest, 508);
    trial.seen.are(&[0, 54, 58], 1_000, 13_000);
    assert!(trial.tables >= files(1_500), "{} tables", trial.tables);
}

/// What the call refuses before it looks at texts.
const OF_CHART_AND_LABELS: [u64; 8] = [20, 21, 30, 31, 32, 33, 34, 35];

/// Charts and labels with damage that aims at each of these.
pub fn damaged_files(calls: Calls, first: u64) {
    let mut trial = Trial::of(calls);
    for (seed, yard) in accepted(first, files(6_000)) {
        let mut rng = Rng::new(seed);
        let number = rng.pick(&OF_CHART_AND_LABELS);
        let Some(file) = gen::damaged(&mut rng, &yard, number) else {
            continue;
        };
        let Ok([_, chart, labelling, _]) = plain::read_records(&file) else {
            continue;
        };
        let damaged = Yard {
            chart: chart.to_vec(),
            labelling: labelling.to_vec(),
            ..g()
        };
        trial.lengths(&damaged, &seed);
    }
    let all = [&[0], &OF_CHART_AND_LABELS[..], &[54, 58]].concat();
    trial.seen.are(&all, 10, 8_000);
}

/// Any transitions among a few vertices, few of them to the end.
fn scattered(rng: &mut Rng) -> Chart {
    let vertices = rng.between(2, 8);
    let actions: &[u8] = rng.pick(&[&[1], &[1, 2], &[1, 127, 128, 255]]);
    let mut steps = Vec::new();
    for from in 1..vertices {
        for _ in 0..rng.between(1, 3) {
            let lowest = if rng.percent(30) { 0 } else { 1 };
            steps.push((from, rng.pick(actions), rng.between(lowest, vertices - 1)));
        }
    }
    let chart = chart(vertices, 1, &steps);
    if rng.percent(95) {
        reached_part(&chart).0
    } else {
        chart
    }
}

/// Small charts, mostly with labels that pass, and some with any labels.
pub fn small_charts(calls: Calls, first: u64) {
    let mut trial = Trial::of(calls);
    for seed in first..first + files(6_000) {
        let mut rng = Rng::new(seed);
        let chart = scattered(&mut rng);
        let found = labels::by_search(&mut rng, &chart);
        let count = chart.transitions.len();
        let mut labels = found.unwrap_or_else(|| (0..count).map(|_| rng.below(4) as u8).collect());
        if rng.percent(10) {
            labels[rng.below(count)] = rng.below(4) as u8;
        }
        trial.lengths(&labelled(&chart, &labels), &seed);
    }
    let all = [0, 31, 32, 33, 34, 35, 54, 58];
    trial.seen.are(&all, 10, 20_000);
    assert!(trial.tables >= files(2_000), "{} tables", trial.tables);
}

/// Each chart with these places for transitions, at most so many, and each
/// labelling of it up to a label.
fn all_labelled(
    places: &[(usize, u8, usize)],
    most: usize,
    highest: u8,
    each: &mut impl FnMut(&[((usize, u8, usize), u8)]),
) {
    fn on(
        places: &[(usize, u8, usize)],
        most: usize,
        highest: u8,
        chosen: &mut Vec<((usize, u8, usize), u8)>,
        each: &mut impl FnMut(&[((usize, u8, usize), u8)]),
    ) {
        let Some((place, rest)) = places.split_first() else {
            return each(chosen);
        };
        on(rest, most, highest, chosen, each);
        if chosen.len() < most {
            for label in 0..=highest {
                chosen.push((*place, label));
                on(rest, most, highest, chosen, each);
                chosen.pop();
            }
        }
    }
    on(places, most, highest, &mut Vec::new(), each);
}

/// The places of transitions by one action.
fn places(vertices: usize) -> Vec<(usize, u8, usize)> {
    let of = |from| (0..vertices).map(move |to| (from, 9, to));
    (1..vertices).flat_map(of).collect()
}

/// Two vertices and the end: each chart with one action, each labelling up to 2 and
/// each start. Three vertices: up to five transitions and labels up to 1.
pub fn all_small_charts(calls: Calls) {
    let mut trial = Trial::of(calls);
    for (vertices, starts, most, highest) in [(3, 2, 6, 2), (4, 1, 5, 1)] {
        all_labelled(&places(vertices), most, highest, &mut |chosen| {
            let (steps, labels): (Vec<_>, Vec<_>) = chosen.iter().copied().unzip();
            for start in 1..=starts {
                let yard = labelled(&chart(vertices, start, &steps), &labels);
                trial.lengths(&yard, &format!("{steps:?} {labels:?} {start}"));
            }
        });
    }
    let all = [0, 31, 32, 33, 34, 35, 54];
    trial.seen.are(&all, 300, 2 * (8_192 + 35_313));
}

fn act(action: u8) -> Shape {
    Shape::Action(action)
}

/// The text of a vertex without transitions.
fn stuck() -> Shape {
    Shape::star(Shape::Deadlock, Shape::Deadlock)
}

/// An action times a text.
fn then(action: u8, text: Shape) -> Shape {
    Shape::product(act(action), text)
}

/// The text of a vertex with branches alone.
fn leaving(branches: Shape) -> Shape {
    Shape::star(Shape::Deadlock, branches)
}

/// Labelled transitions from vertex 1 on: from, action, to, label.
fn drawn(vertices: usize, steps: &[(usize, u8, usize, u8)]) -> Yard {
    let labels: Vec<u8> = steps.iter().map(|step| step.3).collect();
    let steps: Vec<_> = steps.iter().map(|&(v, a, w, _)| (v, a, w)).collect();
    labelled(&chart(vertices, 1, &steps), &labels)
}

/// Single charts with their texts.
pub fn single_texts(calls: Calls) {
    let mut trial = Trial::of(calls);
    let (sum, star) = (Shape::sum, Shape::star);
    let round = |entries, branches| star(act(entries), act(branches));
    let cases = [
        (g(), round(1, 2)),
        // Document 01's two loops.
        (
            labelled(&two_loops(), &[2, 0, 1, 0]),
            star(then(1, round(1, 2)), act(3)),
        ),
        // No transition at all, and a branch to such a vertex.
        (drawn(2, &[]), stuck()),
        (drawn(3, &[(1, 5, 2, 0)]), leaving(then(5, stuck()))),
        // One item is no sum; three nest to the left, by action and then target.
        (drawn(2, &[(1, 5, 0, 0)]), leaving(act(5))),
        (
            drawn(3, &[(1, 1, 0, 0), (1, 1, 2, 0), (1, 2, 0, 0), (2, 3, 0, 0)]),
            leaving(sum(sum(act(1), then(1, leaving(act(3)))), act(2))),
        ),
        // Entries of any level together, in the order of the transitions, and so
        // the branches among them.
        (
            drawn(
                2,
                &[
                    (1, 1, 0, 0),
                    (1, 2, 1, 9),
                    (1, 3, 0, 0),
                    (1, 4, 1, 1),
                    (1, 5, 1, 255),
                    (1, 255, 0, 0),
                ],
            ),
            star(
                sum(sum(act(2), act(4)), act(5)),
                sum(sum(act(1), act(3)), act(255)),
            ),
        ),
        // Inside a loop it is the loop's vertex that ends a text: by vertex 2 and,
        // once more, by vertices 3 and 2.
        (
            drawn(
                4,
                &[
                    (1, 1, 2, 1),
                    (1, 2, 3, 1),
                    (1, 3, 0, 0),
                    (2, 4, 1, 0),
                    (3, 5, 1, 0),
                    (3, 6, 2, 0),
                ],
            ),
            star(
                sum(
                    then(1, leaving(act(4))),
                    then(2, leaving(sum(act(5), then(6, leaving(act(4)))))),
                ),
                act(3),
            ),
        ),
        // After a branch it is the end again.
        (
            drawn(3, &[(1, 1, 1, 1), (1, 2, 2, 0), (2, 3, 2, 1), (2, 4, 0, 0)]),
            star(act(1), then(2, round(3, 4))),
        ),
        // A loop in a loop in a loop.
        (
            drawn(
                4,
                &[
                    (1, 1, 2, 3),
                    (1, 2, 0, 0),
                    (2, 3, 1, 0),
                    (2, 4, 3, 2),
                    (3, 5, 2, 0),
                    (3, 6, 3, 1),
                ],
            ),
            star(then(1, star(then(4, star(act(6), act(5))), act(3))), act(2)),
        ),
        // A loop with a way to a vertex that is stuck, and no way out.
        (
            drawn(3, &[(1, 1, 1, 1), (1, 2, 2, 1)]),
            star(sum(act(1), then(2, stuck())), Shape::Deadlock),
        ),
        // A vertex of which two lead to is written twice.
        (
            drawn(4, &[(1, 1, 2, 0), (1, 1, 3, 0), (2, 2, 3, 0), (3, 3, 0, 0)]),
            leaving(sum(
                then(1, leaving(then(2, leaving(act(3))))),
                then(1, leaving(act(3))),
            )),
        ),
    ];
    for (yard, shape) in cases {
        assert_eq!(trial.lengths(&yard, &"by hand"), table_of(&shape));
    }
}

/// There and back: G's chart gives G's expression. The weighbridge's gives another
/// one than its own, which makes an accepted file too.
pub fn the_examples(calls: Calls) {
    let mut trial = Trial::of(calls);
    let g = yard(&of_the_repository("examples/g.yard"));
    let (_, table) = trial.lengths(&g, &"G");
    assert_eq!(table, g.expression);

    let weighbridge = yard(&of_the_repository("examples/weighbridge.yard"));
    let weighed = || {
        let typed = leaving(then(5, leaving(act(6))));
        Shape::star(act(3), then(4, typed))
    };
    let lorry = Shape::sum(then(1, weighed()), then(2, weighed()));
    let written = trial.lengths(&weighbridge, &"the weighbridge");
    assert_eq!(written, table_of(&Shape::star(lorry, act(7))));
    assert_eq!(trial.tables, 2);
}

/// What is answered for a text of so many leaves.
fn of_leaves(leaves: u128) -> Answer {
    if leaves > MOST_LEAVES {
        return Answer::new(58, 0, 0, 0);
    }
    let nodes = 2 * leaves as u64 - 1;
    Answer::fine(4 * nodes, 0, 0)
}

/// Texts that grow by a leaf or by two a vertex, and texts that grow by as much as
/// they are, up to the largest chart: 127 nodes are written, 129 are not.
pub fn growing_texts(calls: Calls) {
    let mut trial = Trial::of(calls);
    let mut of = |made: Extraction, leaves: u128, origin: &str, size: u8| {
        let origin = format!("{origin} {size}");
        let (answer, _) = trial.lengths(&yard_of(made), &origin);
        assert_eq!(answer, of_leaves(leaves), "{origin}");
    };
    for leaves in 2..=255 {
        of(worst::one_text(leaves), leaves.into(), "one text", leaves);
    }
    for size in 1..=127 {
        let top: usize = size.into();
        of(worst::texts_in_a_line(top), 2 * top as u128, "line", size);
        of(worst::texts_in_a_nest(top), 2 * top as u128, "nest", size);
        let leaves = ((1u128 << size) - 1).saturating_mul(3);
        of(worst::texts_in_diamonds(top), leaves, "diamonds", size);
    }
    for size in 1..=126 {
        let made = worst::texts_of_nested_loops(size.into());
        of(made, 1 << (size + 1), "nested loops", size);
    }
    trial.seen.are(&[0, 54, 58], 400, 2_000);
}

/// The largest tables and the longest texts; one table in lent bytes of each length.
pub fn at_the_limits(calls: Calls) {
    let mut trial = Trial::of(calls);
    for (name, made) in worst::extractions() {
        let yard = yard_of(made);
        let (answer, table) = trial.lengths(&yard, &name);
        let wanted = match name {
            "small" => Answer::fine(116, 0, 0),
            _ if name.starts_with("refused 58") => Answer::new(58, 0, 0, 0),
            _ => Answer::fine(508, 0, 0),
        };
        assert_eq!(answer, wanted, "{name}");
        if name == "nest" {
            for lent in 0..=512 {
                let wanted = if lent < 508 {
                    refusal(54, 508)
                } else {
                    (answer, table.clone())
                };
                let written = trial.run(&yard, lent, &name);
                assert_eq!(written, wanted, "{lent} bytes lent");
            }
        }
    }
    trial.seen.are(&[0, 54, 58], 12, 550);
}

/// The charts and labels of the worst files, whose texts are all too long.
pub fn worst_files(calls: Calls) {
    let mut trial = Trial::of(calls);
    for (name, yard) in worst::all() {
        assert_eq!(trial.lengths(&yard, &name), refusal(58, 0), "{name}");
    }
}

/// A chart with these faults among 31 to 35 and 58, each at vertices of its own
/// that the start branches to.
fn with_faults(faults: &[u64]) -> Yard {
    let has = |number: u64| faults.contains(&number);
    let mut steps = vec![(1, 1, 2, 0), (2, 1, 0, 0)];
    if has(32) {
        steps.extend([(1, 1, 3, 0), (3, 1, 4, 0), (4, 1, 3, 0)]);
    } else {
        steps.extend([(1, 1, 3, 0), (1, 1, 4, 0)]);
    }
    steps.extend([(1, 1, 5, 0), (5, 1, 5, 1)]);
    if has(33) {
        steps.push((5, 2, 2, 2));
    }
    steps.extend([(1, 1, 6, 0), (6, 1, 6, 1)]);
    if has(34) {
        steps.push((6, 2, 0, 1));
    }
    steps.extend([(1, 1, 7, 0), (7, 1, 8, 2), (8, 1, 7, 0)]);
    steps.push((8, 2, 8, if has(35) { 2 } else { 1 }));
    if has(58) {
        steps.extend((2..=66).map(|action| (1, action, 0, 0)));
    }
    steps.sort();
    drawn(if has(31) { 10 } else { 9 }, &steps)
}

/// Where several refusals have a cause, the first in their order: all sets of
/// faults, with enough bytes and just enough, or one too few and none.
pub fn order_of_refusals(calls: Calls) {
    let mut trial = Trial::of(calls);
    let needed = trial.lengths(&with_faults(&[]), &"no fault").1.len();
    let order = [20, 21, 30, 31, 32, 33, 34, 35, 58, 54];
    for code in 0..1 << order.len() {
        let chosen = (0..order.len()).filter(|place| code >> place & 1 == 1);
        let faults: Vec<u64> = chosen.map(|place| order[place]).collect();
        let mut yard = with_faults(&faults);
        if faults.contains(&20) {
            yard.chart[1] = 0;
        }
        if faults.contains(&21) {
            yard.chart[7] = 1;
        }
        if faults.contains(&30) {
            yard.labelling.push(0);
        }
        let lent = if faults.contains(&54) {
            [needed - 1, 0]
        } else {
            [ROOM, needed]
        };
        let wanted = faults.first().copied().unwrap_or(0);
        for lent in lent {
            let (answer, _) = trial.call(&yard, lent, &format!("{faults:?}"));
            assert_eq!(answer.n, wanted, "{faults:?}");
        }
    }
    let all = [&[0], &OF_CHART_AND_LABELS[..], &[54, 58]].concat();
    trial.seen.are(&all, 2, 2_048);
}
