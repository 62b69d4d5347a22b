//! The expression's chart against 001's seven rules.
mod common;
use common::files;
use oracle::gen::{self, Rng};
use oracle::plain::{
    climb, expression_chart, read_nodes, residual, steps, tree, Expr, Form, Node, Target,
};
use std::collections::BTreeSet;
use std::rc::Rc;

/// What a vertex is read as, against the rules.
fn meaning(nodes: &[Node], vertex: usize) -> Target {
    match vertex {
        0 => Target::End,
        _ => Target::Expr(residual(nodes, vertex - 1).erased()),
    }
}

#[test]
fn has_exactly_the_steps_that_the_rules_derive() {
    let mut compared = 0;
    for seed in 0..files(1_200) {
        let body = gen::accepted(seed).expression;
        let nodes = read_nodes(&body).unwrap();
        let chart = expression_chart(&nodes);
        let meanings: Vec<Target> = (0..chart.vertices).map(|v| meaning(&nodes, v)).collect();
        for vertex in 1..chart.vertices {
            let Target::Expr(e) = &meanings[vertex] else {
                unreachable!()
            };
            let derived = steps(e);
            let listed = &chart.transitions[chart.leaving(vertex)];
            for t in listed {
                let step = (t.action, meanings[t.to].clone());
                assert!(derived.contains(&step), "seed {seed}: {t:?} isn't derived");
            }
            for (action, target) in &derived {
                let found = listed
                    .iter()
                    .any(|t| t.action == *action && meanings[t.to] == *target);
                assert!(
                    found,
                    "seed {seed}: a step of vertex {vertex} by {action} is missing"
                );
            }
            compared += derived.len();
        }
    }
    assert!(compared > 10_000);
}

#[test]
fn targets_are_those_of_the_climb() {
    // From each vertex the first leaves, found from those of the operands.
    fn first(nodes: &[Node], node: usize) -> Vec<usize> {
        match nodes[node] {
            Node::Deadlock => vec![],
            Node::Action(_) => vec![node],
            Node::Sum(l, r) | Node::Star(l, r) => [first(nodes, l), first(nodes, r)].concat(),
            Node::Product(l, _) => first(nodes, l),
        }
    }
    for seed in 0..files(2_000) {
        let nodes = read_nodes(&gen::accepted(seed).expression).unwrap();
        let chart = expression_chart(&nodes);
        let mut wanted = BTreeSet::new();
        for node in 0..nodes.len() {
            for leaf in first(&nodes, node) {
                let Node::Action(action) = nodes[leaf] else {
                    unreachable!()
                };
                let to = climb(&nodes, leaf).map_or(0, |target| target + 1);
                wanted.insert((node + 1, action, to));
            }
        }
        let listed: Vec<_> = chart
            .transitions
            .iter()
            .map(|t| (t.from, t.action, t.to))
            .collect();
        assert_eq!(
            listed,
            wanted.into_iter().collect::<Vec<_>>(),
            "seed {seed}"
        );
    }
}

#[test]
fn start_stands_for_the_root() {
    for seed in 0..200 {
        let nodes = read_nodes(&gen::accepted(seed).expression).unwrap();
        let start = expression_chart(&nodes).start;
        assert_eq!(start, nodes.len());
        assert_eq!(meaning(&nodes, start), Target::Expr(tree(&nodes).erased()));
    }
}

#[test]
fn equal_steps_are_listed_once_and_occurrences_stay_apart() {
    // a + a: one step.
    let nodes = [Node::Action(1), Node::Action(1), Node::Sum(0, 1)];
    assert_eq!(expression_chart(&nodes).transitions.len(), 3);
    // a b + a b: two, to the two occurrences of b.
    let nodes = [
        Node::Action(1),
        Node::Action(2),
        Node::Product(0, 1),
        Node::Action(1),
        Node::Action(2),
        Node::Product(3, 4),
        Node::Sum(2, 5),
    ];
    let chart = expression_chart(&nodes);
    let of_root: Vec<usize> = chart.transitions[chart.leaving(7)]
        .iter()
        .map(|t| t.to)
        .collect();
    assert_eq!(of_root, [2, 5]);
}

#[test]
fn rules_on_small_expressions() {
    fn e(form: Form) -> Rc<Expr> {
        Rc::new(Expr {
            occurrence: None,
            form,
        })
    }
    let (a, b, c) = (e(Form::Action(1)), e(Form::Action(2)), e(Form::Action(3)));
    let ab = e(Form::Product(a.clone(), b.clone()));
    let star = e(Form::Star(ab.clone(), c.clone()));
    let b_then_star = e(Form::Product(b.clone(), star.clone()));
    assert_eq!(steps(&a), [(1, Target::End)]);
    assert_eq!(steps(&e(Form::Deadlock)), []);
    assert_eq!(steps(&ab), [(1, Target::Expr(b.clone()))]);
    let ab_c = e(Form::Product(ab, c.clone()));
    let bc = e(Form::Product(b, c));
    assert_eq!(steps(&ab_c), [(1, Target::Expr(bc))]);
    let of_star = [(1, Target::Expr(b_then_star.clone())), (3, Target::End)];
    assert_eq!(steps(&star), of_star);
    assert_eq!(steps(&b_then_star), [(2, Target::Expr(star.clone()))]);
    let outer = e(Form::Star(star.clone(), a));
    let inside = |x: Rc<Expr>| Target::Expr(e(Form::Product(x, outer.clone())));
    assert_eq!(
        steps(&outer),
        [
            (1, inside(b_then_star)),
            (3, Target::Expr(outer.clone())),
            (1, Target::End)
        ]
    );
}

#[test]
fn another_numbering_has_the_same_chart_but_for_numbers() {
    let mut otherwise = 0;
    for seed in 0..files(400) {
        let mut rng = Rng::new(seed);
        let leaves = rng.between(2, 20);
        let shape = gen::expressions::random(&mut rng, leaves);
        let body = gen::expressions::post_order(&shape);
        let other = gen::expressions::renumbered(&mut rng, &body);
        otherwise += (body != other) as u32;
        let (one, other) = (read_nodes(&body).unwrap(), read_nodes(&other).unwrap());
        let (one, other) = (expression_chart(&one), expression_chart(&other));
        assert_eq!(
            one.transitions.len(),
            other.transitions.len(),
            "seed {seed}"
        );
        let (of_one, of_other) = gen::charts::bisimilarity_classes(&one, &other);
        assert_eq!(of_one[one.start], of_other[other.start], "seed {seed}");
    }
    assert!(otherwise > 100);
}
