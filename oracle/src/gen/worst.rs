//! Files at the limits, each hard on one stage of the check, and removals of one
//! loop and of several together, calls of the follower, ways to the end and
//! expressions of charts at the limits. All files are accepted.
use super::charts::chart_of;
use super::expressions::{self, Shape};
use super::lists::{state_with, Call, State};
use super::relations;
use super::rng::Rng;
use super::Yard;
use crate::plain::{expression_chart, read_nodes, Transition};
use std::collections::BTreeMap;

/// Labelled steps before they are put in order: 0 is a branch.
type Labelled = BTreeMap<Transition, u8>;

fn step(from: usize, action: u8, to: usize) -> Transition {
    Transition { from, action, to }
}

/// The file of a chart with these labelled steps and the greatest bisimulation.
fn yard(shape: &Shape, vertices: usize, start: usize, labelled: Labelled) -> Yard {
    let expression = expressions::post_order(shape);
    let nodes = read_nodes(&expression).expect("a well-formed expression");
    let of_expression = expression_chart(&nodes);
    let chart = chart_of(vertices, start, labelled.keys().copied().collect());
    let pairs = relations::greatest(&of_expression, &chart);
    Yard {
        expression,
        chart: chart.bytes(),
        labelling: labelled.into_values().collect(),
        relation: relations::bytes(&of_expression, &pairs),
    }
}

/// Actions 1 to `actions` for ever.
fn forever(actions: u8) -> Shape {
    Shape::star(Shape::sum_of_actions(actions), Shape::Deadlock)
}

/// Every vertex branches to all lower ones, `top` vertices in all; vertex 1
/// has an entry to every vertex, each of its own level.
fn downwards(top: usize, entries: usize) -> Labelled {
    let mut labelled = Labelled::new();
    for v in 2..=top {
        for to in 1..v {
            labelled.insert(step(v, 1, to), 0);
        }
    }
    for to in 1..=entries {
        labelled.insert(step(1, 1, to), to as u8);
    }
    labelled
}

/// Check 32: V 128 with a branch from each vertex to all lower ones.
pub fn many_vertices() -> Yard {
    yard(&forever(1), 128, 127, downwards(127, 127))
}

/// Checks 44 and 45: 127 nodes, V 128, T 8,192 and all but the end and the
/// exit related; with 43,536 bytes also the longest file.
pub fn full_relation() -> Yard {
    // 63 actions, all 1, summed, multiplied and repeated by turns.
    let mut repeated = Shape::Action(1);
    for i in 0..62 {
        repeated = match i % 3 {
            0 => Shape::sum(repeated, Shape::Action(1)),
            1 => Shape::product(Shape::Action(1), repeated),
            _ => Shape::star(repeated, Shape::Action(1)),
        };
    }
    let mut labelled = downwards(127, 127);
    let mut v = 2;
    while labelled.len() < 8192 {
        labelled.insert(step(v, 1, v), 1);
        v += 1;
    }
    // Those are inside the bodies of vertex 1's loops, which have to be above.
    for to in 1..=127 {
        labelled.insert(step(1, 1, to), to as u8 + 1);
    }
    yard(&Shape::star(repeated, Shape::Deadlock), 128, 127, labelled)
}

/// Checks 33 to 35: thousands of loops, each with a body of `tail` vertices
/// that are followed by all of the loops and don't lead back.
pub fn thousands_of_loops() -> Yard {
    loops_with_a_tail(48, 40, 63)
}

fn loops_with_a_tail(actions: u8, tail: usize, starts: usize) -> Yard {
    let mut labelled = Labelled::new();
    // Vertices 1 to `tail` branch to lower ones by some actions and have
    // entries of level 1 to themselves by the others.
    for v in 1..=tail {
        for action in 1..=actions {
            labelled.insert(step(v, action, v), 1);
        }
        for to in 1..v {
            let action = ((v + to) % actions as usize) as u8 + 1;
            labelled.remove(&step(v, action, v));
            labelled.insert(step(v, action, to), 0);
        }
    }
    // Above them: at each vertex and level an entry to itself and one to the
    // tail, while there is room for it.
    let top = tail + starts;
    for v in tail + 1..=top {
        for action in 1..=actions {
            labelled.insert(step(v, action, v), action + 1);
        }
        if v > tail + 1 {
            labelled.insert(step(v, 1, v - 1), 0);
        }
    }
    let with_tail: Vec<Transition> = labelled
        .keys()
        .copied()
        .filter(|t| t.from > tail && t.from == t.to)
        .collect();
    for t in with_tail {
        if labelled.len() < 8192 {
            labelled.insert(step(t.from, t.action, tail), t.action + 1);
        }
    }
    yard(&forever(actions), top + 1, top, labelled)
}

/// Checks 34 and 35 with loops that have little in common: a path of `tail`
/// vertices, each with loops above those of the next; at each other vertex a
/// loop just above each of these, with the path from there on in its body.
pub fn own_bodies() -> Yard {
    loops_along_a_path(48, 60)
}

fn loops_along_a_path(tail: u8, starts: usize) -> Yard {
    let mut labelled = Labelled::new();
    for at in 1..=tail {
        let v = at as usize;
        for action in 1..=tail {
            labelled.insert(step(v, action, v), 2 * at);
        }
        if v > 1 {
            labelled.remove(&step(v, 1, v));
            labelled.insert(step(v, 1, v - 1), 0);
        }
    }
    let first = tail as usize + 1;
    let top = tail as usize + starts;
    for v in first..=top {
        for at in 1..=tail {
            labelled.insert(step(v, at, v), 2 * at + 1);
            labelled.insert(step(v, at, at as usize), 2 * at + 1);
        }
        if v > first {
            labelled.insert(step(v, 1, v - 1), 0);
        }
    }
    yard(&forever(tail), top + 1, top, labelled)
}

/// Most loops: each of 127 vertices goes round by itself at 62 or 63 levels.
pub fn most_loops() -> Yard {
    rounds(63, 127)
}

fn rounds(actions: u8, top: usize) -> Yard {
    let mut labelled = Labelled::new();
    for v in 1..=top {
        for action in 1..=actions {
            labelled.insert(step(v, action, v), action.wrapping_mul(4) | 1);
        }
        if v > 1 {
            labelled.remove(&step(v, 1, v));
            labelled.insert(step(v, 1, v - 1), 0);
        }
    }
    yard(&forever(actions), top + 1, top, labelled)
}

/// Longest bodies: a branch path through all vertices to vertex 1, which has
/// as many loops as fit, all of them round the whole path.
pub fn longest_body() -> Yard {
    path(63, 127, 3)
}

fn path(actions: u8, top: usize, entries_an_action: usize) -> Yard {
    let mut labelled = Labelled::new();
    for v in 2..=top {
        labelled.insert(step(v, 1, v - 1), 0);
        for action in 2..=actions {
            labelled.insert(step(v, action, v), 1);
        }
    }
    let mut level = 1;
    for action in 1..=actions {
        for back in 0..entries_an_action {
            level += 1;
            labelled.insert(step(1, action, (top - back).max(1)), level);
        }
    }
    yard(&forever(actions), top + 1, top, labelled)
}

/// As many layers, as wide, as there is room for.
pub fn wide_layers() -> Yard {
    layers(11, 12, 5)
}

/// Layers in which every vertex has every action of its layer to every vertex
/// of the next; no loops.
fn layers(depth: usize, width: usize, actions: u8) -> Yard {
    let one = || Shape::sum_of_actions(actions);
    let shape = (1..depth).fold(one(), |after, _| Shape::product(one(), after));
    let mut labelled = Labelled::new();
    let at = |layer: usize, i: usize| {
        if layer == 0 {
            0
        } else {
            1 + (layer - 1) * width + i
        }
    };
    // The top layer is the start alone.
    for layer in 1..=depth {
        for from in 0..if layer == depth { 1 } else { width } {
            for to in 0..if layer == 1 { 1 } else { width } {
                for action in 1..=actions {
                    labelled.insert(step(at(layer, from), action, at(layer - 1, to)), 0);
                }
            }
        }
    }
    let start = at(depth, 0);
    yard(&shape, start + 1, start, labelled)
}

/// Stars in stars: 127 nodes, levels up to 63, the expression's own chart.
pub fn deepest_nest() -> Yard {
    let mut shape = Shape::Action(1);
    for i in 0..63u8 {
        shape = Shape::star(shape, Shape::Action(i % 5 + 1));
    }
    let expression = expressions::post_order(&shape);
    let nodes = read_nodes(&expression).expect("a well-formed expression");
    let own = expression_chart(&nodes);
    let labels = super::labels::by_refined_rules(&nodes, &own);
    let (chart, new) = super::charts::reached_part(&own);
    let kept = own
        .transitions
        .iter()
        .zip(labels)
        .filter(|(t, _)| new[t.from].is_some());
    let pairs = relations::greatest(&own, &chart);
    Yard {
        expression,
        labelling: kept.map(|(_, label)| label).collect(),
        chart: chart.bytes(),
        relation: relations::bytes(&own, &pairs),
    }
}

/// Loops in one another, as many as fit: a branch path up through all vertices,
/// each of which has an entry to the lowest. So the body of each has all lower
/// ones in it, and all their loops.
pub fn chain_of_loops() -> Yard {
    yard(&forever(1), 128, 1, nested_loops(127))
}

fn nested_loops(top: usize) -> Labelled {
    let mut labelled = Labelled::new();
    for v in 1..=top {
        labelled.insert(step(v, 1, 1), v as u8);
        if v < top {
            labelled.insert(step(v, 1, v + 1), 0);
        }
    }
    labelled
}

/// Check 35 where the loops of one vertex can't be told by what all of them
/// reach: layers of `WIDTH` vertices, each with a loop of its own level, that
/// branch to all of the next lower layer, the lowest to vertex 127. That one has
/// for each of these loops one just above it, which leads to its vertex. There
/// is room for one transition more.
pub fn dense_layers() -> Yard {
    const WIDTH: usize = 9;
    const ACTIONS: u8 = 7;
    let mut labelled = Labelled::new();
    for v in 1..=126 {
        let lowest_of_layer = v - (v - 1) % WIDTH;
        let next = if lowest_of_layer == 1 {
            127..128
        } else {
            lowest_of_layer - WIDTH..lowest_of_layer
        };
        for action in 1..=ACTIONS {
            labelled.extend(next.clone().map(|to| (step(v, action, to), 0)));
        }
        labelled.insert(step(v, 1, v), 2 * v as u8);
    }
    for more in 0..ACTIONS {
        for to in 1..=126u8 {
            if labelled.len() < 8191 {
                let action = (to + more) % ACTIONS + 1;
                labelled.insert(step(127, action, to.into()), 2 * to + 1);
            }
        }
    }
    yard(&forever(ACTIONS), 128, 127, labelled)
}

/// The named files.
const NAMED: [(&str, fn() -> Yard); 10] = [
    ("many vertices", many_vertices),
    ("thousands of loops", thousands_of_loops),
    ("own bodies", own_bodies),
    ("most loops", most_loops),
    ("full relation", full_relation),
    ("longest body", longest_body),
    ("wide layers", wide_layers),
    ("deepest nest", deepest_nest),
    ("chain of nested loops", chain_of_loops),
    ("dense layers", dense_layers),
];

/// So many of the first are in the generator's files too. Later ones are not, so
/// that a seed's file stays what it is.
const GENERATED: usize = 8;

/// All named files, with their names.
pub fn all() -> Vec<(&'static str, Yard)> {
    NAMED.map(|(name, yard)| (name, yard())).to_vec()
}

/// One of these families, mostly smaller.
pub(super) fn some(rng: &mut Rng) -> Yard {
    if rng.percent(25) {
        let (_, yard) = NAMED[rng.below(GENERATED)];
        return yard();
    }
    match rng.below(6) {
        0 => {
            let top = rng.between(2, 40);
            let entries = rng.between(1, top);
            yard(&forever(1), top + 1, top, downwards(top, entries))
        }
        1 => {
            let (tail, starts) = (rng.between(2, 12), rng.between(1, 12));
            loops_with_a_tail(rng.between(2, 20) as u8, tail, starts)
        }
        2 => loops_along_a_path(rng.between(1, 12) as u8, rng.between(1, 12)),
        3 => rounds(rng.between(2, 40) as u8, rng.between(2, 30)),
        4 => path(
            rng.between(1, 12) as u8,
            rng.between(3, 40),
            rng.between(1, 3),
        ),
        _ => layers(
            rng.between(2, 6),
            rng.between(2, 8),
            rng.between(1, 4) as u8,
        ),
    }
}

/// A loop that is to be taken out.
#[derive(Clone, Debug)]
pub struct Removal {
    pub chart: Vec<u8>,
    pub labels: Vec<u8>,
    pub vertex: u8,
    pub level: u8,
    pub standing: Vec<u8>,
}

/// The bodies of a chart with these labelled steps and of its labels; what is
/// missing of 8,192 transitions are branches to the next lower vertex.
fn filled(mut labelled: Labelled) -> (Vec<u8>, Vec<u8>) {
    let downwards = (2..=127).rev().map(|v| step(v, 2, v - 1));
    let missing = 8192 - labelled.len();
    let new: Vec<Transition> = downwards
        .filter(|t| !labelled.contains_key(t))
        .take(missing)
        .collect();
    labelled.extend(new.into_iter().map(|t| (t, 0)));
    let chart = chart_of(128, 127, labelled.keys().copied().collect());
    (chart.bytes(), labelled.into_values().collect())
}

impl Removal {
    /// All stands.
    fn of(vertex: u8, level: u8, labelled: Labelled) -> Removal {
        let (chart, labels) = filled(labelled);
        Removal {
            chart,
            standing: vec![1; labels.len()],
            labels,
            vertex,
            level,
        }
    }

    /// The loop's entries.
    pub fn entries(&self) -> Vec<usize> {
        let labels = self.labels.iter().enumerate();
        let with_level = labels.filter(|(_, label)| **label == self.level);
        with_level
            .map(|(index, _)| index)
            .filter(|index| self.chart[4 + 4 * index] == self.vertex)
            .collect()
    }
}

/// Every vertex branches to all lower ones; the loop of vertex 1 goes round by
/// all of them. One step more.
fn dense(more: Transition, label: u8) -> Removal {
    let mut labelled = downwards(127, 127);
    labelled.insert(more, label);
    Removal::of(1, 127, labelled)
}

/// That chart, where nothing of vertex 1 stands any more; the loop is one of
/// vertex 127, which nothing leads back to.
fn without_return() -> Removal {
    let mut labelled = downwards(127, 127);
    for to in 63..127 {
        labelled.insert(step(127, 2, to), 1);
    }
    let mut removal = Removal::of(127, 1, labelled);
    removal.standing[..127].fill(0);
    removal
}

/// 65 steps from each vertex to the next lower one, down to vertex 1 and by its
/// loop up again; the last of them leads to `last`.
fn chain(last: usize) -> Removal {
    let mut labelled = Labelled::new();
    for v in 2..=127 {
        for action in 1..=65 {
            labelled.insert(step(v, action, v - 1), 0);
        }
    }
    labelled.remove(&step(2, 65, 1));
    labelled.insert(step(2, 65, last), 0);
    labelled.insert(step(1, 1, 127), 1);
    labelled.insert(step(1, 2, 127), 1);
    Removal::of(1, 1, labelled)
}

/// Each vertex goes round by itself at 64 levels.
fn thousands() -> Labelled {
    let mut labelled = Labelled::new();
    for v in 1..=127 {
        for action in 1..=64 {
            labelled.insert(step(v, action, v), action);
        }
    }
    labelled
}

fn of_thousands(level: u8) -> Removal {
    Removal::of(127, level, thousands())
}

/// Removals from charts of 128 vertices and 8,192 transitions, each with its
/// name: done, and refused by 51 and by 52 with each r.
pub fn removals() -> Vec<(&'static str, Removal)> {
    vec![
        ("done dense", dense(step(127, 2, 1), 0)),
        ("done chain", chain(1)),
        ("done of thousands", of_thousands(64)),
        ("refused 51", of_thousands(65)),
        ("refused 52 r 1", without_return()),
        // Half way through, whichever end a search begins at.
        ("refused 52 r 2", dense(step(64, 1, 64), 1)),
        ("refused 52 r 2 chain", chain(127)),
        ("refused 52 r 3", dense(step(2, 1, 0), 0)),
    ]
}

/// A list of loops that are to be taken out together.
#[derive(Clone, Debug)]
pub struct TogetherCall {
    pub chart: Vec<u8>,
    pub labels: Vec<u8>,
    /// Two bytes each: v, then level.
    pub loops: Vec<u8>,
    pub standing: Vec<u8>,
}

impl TogetherCall {
    /// All stands.
    fn of(loops: impl Iterator<Item = (u8, u8)>, labelled: Labelled) -> TogetherCall {
        let (chart, labels) = filled(labelled);
        TogetherCall {
            chart,
            standing: vec![1; labels.len()],
            labels,
            loops: loops.flat_map(|(v, level)| [v, level]).collect(),
        }
    }
}

/// Every vertex branches to all lower ones; by each of 64 loops vertex 1 leads
/// to the two highest, and all other vertices are in its body.
fn dense_of_one_start() -> TogetherCall {
    let mut labelled = downwards(127, 0);
    for level in 1..=64 {
        labelled.insert(step(1, level, 126), level);
        labelled.insert(step(1, level, 127), level);
    }
    TogetherCall::of((1..=64).map(|level| (1, level)), labelled)
}

/// 64 or 65 steps from each vertex to the next lower one, down to vertex 1 and
/// by 64 loops up again.
fn chain_of_one_start() -> TogetherCall {
    let mut labelled = Labelled::new();
    for v in 2..=127 {
        for action in 1..=if v < 64 { 64 } else { 65 } {
            labelled.insert(step(v, action, v - 1), 0);
        }
    }
    for level in 1..=64 {
        labelled.insert(step(1, level, 127), level);
    }
    TogetherCall::of((1..=64).map(|level| (1, level)), labelled)
}

/// 64 starts, all of which lead to the 63 other vertices. These lead to all
/// lower ones by three actions, and not back. What else a start leads to is
/// said by `back`.
fn with_a_tail(back: fn(usize) -> usize) -> TogetherCall {
    let mut labelled = Labelled::new();
    for v in 1..64 {
        for action in 1..=3 {
            labelled.extend((1..v).map(|to| (step(v, action, to), 0)));
        }
    }
    for v in 64..=127 {
        labelled.insert(step(v, 1, back(v)), 1);
        let first = if v < 99 { 29 } else { 28 };
        labelled.extend((first..64).map(|to| (step(v, 1, to), 1)));
    }
    TogetherCall::of((64..=127).map(|v| (v, 1)), labelled)
}

/// The last two starts lead to each other, others to themselves.
fn last_two_crossed(start: usize) -> usize {
    match start {
        126 => 127,
        127 => 126,
        other => other,
    }
}

/// 64 or 65 steps from each vertex to the next one, round by all; each of the
/// 64 loops goes round, wherever it starts.
fn ring() -> TogetherCall {
    let mut labelled = Labelled::new();
    for v in 1..=127 {
        let next = v % 127 + 1;
        for action in 1..=if v < 64 { 64 } else { 65 } {
            labelled.insert(step(v, action, next), 1);
        }
    }
    TogetherCall::of((1..=64).map(|v| (v, 1)), labelled)
}

/// Lists of 64 loops from charts of 128 vertices and 8,192 transitions, and of two
/// from the weighbridge's, whose entries have a level each and whose inner loop
/// is gone; each with its name: done, and refused 57 where just the last two
/// loops start inside each other, or all do.
pub fn together_calls() -> Vec<(&'static str, TogetherCall)> {
    let small = TogetherCall {
        chart: weighbridge(),
        labels: vec![2, 3, 0, 1, 0, 0, 0],
        loops: vec![1, 2, 1, 3],
        standing: vec![1, 1, 1, 0, 1, 1, 1],
    };
    let by_themselves = TogetherCall::of((64..=127).map(|v| (v, 64)), thousands());
    vec![
        ("done dense", dense_of_one_start()),
        ("done chain", chain_of_one_start()),
        ("done tail", with_a_tail(|start| start)),
        ("done of thousands", by_themselves),
        ("done small", small),
        ("refused 57 last", with_a_tail(last_two_crossed)),
        ("refused 57 ring", ring()),
    ]
}

/// A call of the follower on a state.
#[derive(Clone, Debug)]
pub struct FollowerCall {
    pub chart: Vec<u8>,
    pub state: State,
    pub call: Call,
}

/// Calls over charts of 128 vertices and 8,192 transitions, and over the
/// weighbridge's, each with its name. A small set has one vertex, a full one all
/// of them. In the dense chart each vertex leads to all lower ones by action 1,
/// the lowest to all; action 3 is that of one transition. Of many: each vertex
/// leads to itself by 64 actions. What is not possible spoils the run; a state
/// that is spoilt has an event that its set could take.
pub fn follower_calls() -> Vec<(&'static str, FollowerCall)> {
    let dense = dense(step(127, 3, 1), 0).chart;
    let of_many = of_thousands(64).chart;
    let small = weighbridge();
    let full = u128::MAX;
    let event = Call::Event;
    [
        ("restart", &dense, 0, 0, Call::Restart),
        ("taken small", &of_many, 1 << 127, 0, event(64)),
        ("taken small to full", &dense, 1 << 1, 0, event(1)),
        ("taken full", &dense, full, 0, event(1)),
        ("taken full to small", &dense, full, 0, event(3)),
        ("taken full of many", &of_many, full, 0, event(64)),
        ("not possible small", &of_many, 1 << 127, 0, event(65)),
        ("not possible full", &of_many, full, 0, event(65)),
        ("spoilt full", &of_many, full, 1, event(64)),
        ("weighbridge taken", &small, 1 << 2, 0, event(4)),
        ("weighbridge spoiling", &small, 1 << 2, 0, event(5)),
        ("weighbridge spoilt", &small, 1 << 2, 1, event(4)),
    ]
    .map(|(name, chart, set, mark, call)| {
        let (chart, state) = (chart.clone(), state_with(set, mark));
        (name, FollowerCall { chart, state, call })
    })
    .to_vec()
}

/// A state whose shortest way to the end is asked for.
#[derive(Clone, Debug)]
pub struct WayCall {
    pub chart: Vec<u8>,
    pub state: State,
}

/// From each of 127 vertices one step leads to the next lower one, by its own
/// action.
fn line() -> Vec<u8> {
    let steps = (1..=127).map(|v| step(v, v as u8, v - 1));
    chart_of(128, 127, steps.collect()).bytes()
}

/// That line, where each vertex first goes round by itself by 63 lower actions
/// or 64.
fn line_with_rounds() -> Vec<u8> {
    let mut steps = Vec::new();
    for v in 1..=127 {
        let rounds = if v <= 64 { 64 } else { 63 };
        steps.extend((1..=rounds).map(|action| step(v, action, v)));
        steps.push(step(v, rounds + 1, v - 1));
    }
    chart_of(128, 127, steps).bytes()
}

/// Layers of 16 vertices, each with four actions to every vertex of the next
/// layer; those of the lowest lead to each other so, and to the end by higher
/// actions.
fn layers_of_16() -> Vec<u8> {
    let mut steps = Vec::new();
    for v in 1..=127 {
        let layer = (v - 1) / 16;
        let next = 16 * layer.max(1) - 15;
        for action in 1..=4 {
            steps.extend((next..next + 16).map(|to| step(v, action, to)));
            if layer == 0 {
                steps.push(step(v, action + 4, 0));
            }
        }
    }
    chart_of(128, 127, steps).bytes()
}

/// The weighbridge of the examples.
fn weighbridge() -> Vec<u8> {
    let lorry = [step(1, 1, 2), step(1, 2, 2), step(1, 7, 0)];
    let weighed = [step(2, 3, 2), step(2, 4, 3), step(3, 5, 4), step(4, 6, 1)];
    chart_of(5, 1, [&lorry[..], &weighed].concat()).bytes()
}

/// Ways to the end over charts of 128 vertices and over a small one, each with
/// its name. All but the line and the small one have 8,192 transitions. The
/// dense chart is that of the follower's calls, and has no way to the end; the
/// spoilt state has none, whose set has the longest.
pub fn way_calls() -> Vec<(&'static str, WayCall)> {
    let top_layer = u128::MAX << 113;
    [
        ("longest", line(), 1 << 127, 0),
        ("longest of many", line_with_rounds(), 1 << 127, 0),
        ("nearest of many", line_with_rounds(), 1 << 1, 0),
        ("wide layers", layers_of_16(), top_layer, 0),
        ("small", weighbridge(), 1 << 2, 0),
        ("refused 55", dense(step(127, 3, 1), 0).chart, 1 << 127, 0),
        ("refused 55 spoilt", line_with_rounds(), 1 << 127, 1),
    ]
    .map(|(name, chart, set, mark)| {
        let state = state_with(set, mark);
        (name, WayCall { chart, state })
    })
    .to_vec()
}

/// A labelled chart whose expression is asked for.
#[derive(Clone, Debug)]
pub struct Extraction {
    pub chart: Vec<u8>,
    pub labels: Vec<u8>,
}

impl Extraction {
    fn of(vertices: usize, start: usize, labelled: Labelled) -> Extraction {
        let chart = chart_of(vertices, start, labelled.keys().copied().collect());
        Extraction {
            chart: chart.bytes(),
            labels: labelled.into_values().collect(),
        }
    }
}

/// Each of `top` vertices goes round by itself and branches to the next lower
/// one, so that each text stands in the right part of another. Two leaves a
/// vertex.
pub fn texts_in_a_line(top: usize) -> Extraction {
    let mut labelled = Labelled::new();
    for v in 1..=top {
        labelled.insert(step(v, 1, v), 1);
        labelled.insert(step(v, 2, v - 1), 0);
    }
    Extraction::of(top + 1, top, labelled)
}

/// Each of `top` vertices has an entry to the next higher one, the last to
/// itself, and branches to the next lower one, so that each text stands in the
/// left part of another. Two leaves a vertex.
pub fn texts_in_a_nest(top: usize) -> Extraction {
    let mut labelled = Labelled::new();
    for v in 1..=top {
        labelled.insert(step(v, 1, (v + 1).min(top)), (top + 1 - v) as u8);
        labelled.insert(step(v, 2, v - 1), 0);
    }
    Extraction::of(top + 1, 1, labelled)
}

/// A chain of `top` nested loops, and a vertex before it that goes round by
/// itself. The text has 2^(top + 1) leaves, and few transitions.
pub fn texts_of_nested_loops(top: usize) -> Extraction {
    let mut labelled = nested_loops(top);
    labelled.insert(step(top + 1, 1, 1), 0);
    labelled.insert(step(top + 1, 1, top + 1), 1);
    Extraction::of(top + 2, top + 1, labelled)
}

/// Each of `top` vertices has two branches to the next lower one: the text has
/// 3 x (2^top - 1) leaves.
pub fn texts_in_diamonds(top: usize) -> Extraction {
    let mut labelled = Labelled::new();
    for v in 1..=top {
        labelled.insert(step(v, 1, v - 1), 0);
        labelled.insert(step(v, 2, v - 1), 0);
    }
    Extraction::of(top + 1, top, labelled)
}

/// One vertex that goes round by itself and has the other branches, so many
/// leaves in all.
pub fn one_text(leaves: u8) -> Extraction {
    let mut labelled = Labelled::from([(step(1, 1, 1), 1)]);
    labelled.extend((2..=leaves).map(|action| (step(1, action, 0), 0)));
    Extraction::of(2, 1, labelled)
}

/// Expressions of charts, each with its name: tables of 127 nodes, those of the
/// line, of the nest and of nested loops with 32 texts, the most that there can
/// be; a small one; and texts that are too long, by one leaf, by far more than
/// could be written, or because the chart is too large.
pub fn extractions() -> Vec<(&'static str, Extraction)> {
    let small = Extraction {
        chart: weighbridge(),
        labels: vec![2, 2, 0, 1, 0, 0, 0],
    };
    let layers = dense_layers();
    let large = Extraction {
        chart: layers.chart,
        labels: layers.labelling,
    };
    vec![
        ("line", texts_in_a_line(32)),
        ("nest", texts_in_a_nest(32)),
        ("nested loops", texts_of_nested_loops(5)),
        ("one text", one_text(64)),
        ("small", small),
        ("refused 58 line", texts_in_a_line(127)),
        ("refused 58 nest", texts_in_a_nest(127)),
        ("refused 58 nested loops", texts_of_nested_loops(31)),
        ("refused 58 diamonds", texts_in_diamonds(32)),
        ("refused 58 one text", one_text(65)),
        ("refused 58 dense layers", large),
    ]
}
