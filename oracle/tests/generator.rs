//! The generator makes what it is said to make.
mod common;
use common::{both, chart_of, files};
use oracle::gen::{self, charts, labels};
use oracle::plain::{expression_chart, loop_body, loops, read_nodes, Node};
use std::collections::BTreeMap;

#[test]
fn the_same_file_for_the_same_seed() {
    for seed in 0..200 {
        assert_eq!(gen::file(seed), gen::file(seed));
        assert_ne!(gen::file(seed), gen::file(seed + 1));
    }
}

#[test]
fn accepted_files_of_every_kind() {
    let mut seen: BTreeMap<&str, u32> = BTreeMap::new();
    for seed in 0..files(4_000) {
        let yard = gen::accepted(seed);
        let answer = both(&yard.file(), &format!("seed {seed}"));
        assert_eq!(
            answer.n,
            0,
            "seed {seed}: {answer}\nfile {}",
            gen::hex(&yard.file())
        );

        let nodes = read_nodes(&yard.expression).unwrap();
        let of_expression = expression_chart(&nodes);
        let (own, new) = charts::reached_part(&of_expression);
        let smallest = charts::collapsed(&own);
        let chart = chart_of(&yard);
        let pairs: u32 = yard.relation.iter().map(|byte| byte.count_ones()).sum();
        let greatest = gen::relations::greatest(&of_expression, &chart).len() as u32;
        let mut note = |what: &'static str, holds: bool| {
            *seen.entry(what).or_default() += holds as u32;
        };

        note(
            "numbered otherwise than in post-order",
            !is_post_order(&nodes),
        );
        note("more than 60 nodes", nodes.len() > 60);
        note("127 nodes", nodes.len() == 127);
        note("one node", nodes.len() == 1);
        note(
            "an expression with parts that are not reached",
            own.vertices < of_expression.vertices,
        );
        note(
            "a deadlock inside a star",
            (0..nodes.len()).any(|k| deadlock_repeated(&nodes, k, false)),
        );
        note(
            "equal operands of a sum",
            nodes.iter().any(|n| match n {
                Node::Sum(l, r) => {
                    matches!((nodes[*l], nodes[*r]), (Node::Action(a), Node::Action(b)) if a == b)
                }
                _ => false,
            }),
        );
        note(
            "a collapsed chart",
            chart.vertices == smallest.vertices && smallest.vertices < own.vertices,
        );
        note("an unfolded chart", chart.vertices > own.vertices);
        note(
            "neither collapsed nor the expression's own size",
            chart.vertices > smallest.vertices && chart.vertices < own.vertices,
        );
        note("V 128", chart.vertices == 128);
        note("T 8192", chart.transitions.len() == 8192);
        note("thousands of loops", answer.r >= 2_000);
        note(
            "the greatest bisimulation, more than the reached pairs",
            pairs == greatest && pairs > own.vertices as u32,
        );
        note("less than the greatest bisimulation", pairs < greatest);

        if chart.transitions.len() < 1_000 {
            let all = loops(&chart, &yard.labelling);
            let nested = |one: &(usize, u8)| {
                let inside = loop_body(&chart, &yard.labelling, *one);
                all.iter().any(|(w, _)| *w != one.0 && inside.contains(w))
            };
            note("loops in a loop", all.iter().any(nested));
            note(
                "several levels at a vertex",
                all.iter()
                    .any(|(v, _)| all.iter().filter(|(w, _)| v == w).count() > 1),
            );
            note("a level above 10", all.iter().any(|(_, level)| *level > 10));
            note("a level above 40", all.iter().any(|(_, level)| *level > 40));
            note(
                "an entry that does not lead back",
                entries_without_way_back(&chart, &yard.labelling),
            );
            if chart.vertices == own.vertices {
                let by_rules = labels::by_refined_rules(&nodes, &of_expression);
                let kept = of_expression.transitions.iter().zip(by_rules);
                let mut by_rules: Vec<u8> = kept
                    .filter(|(t, _)| new[t.from].is_some())
                    .map(|(_, l)| l)
                    .collect();
                let mut own_labels = yard.labelling.clone();
                by_rules.sort();
                own_labels.sort();
                note(
                    "labels other than the refined rules'",
                    by_rules != own_labels,
                );
            }
        }
    }
    println!("{seen:#?}");
    for (what, times) in &seen {
        let least = match *what {
            "T 8192" | "thousands of loops" => 2,
            "V 128" | "127 nodes" | "a level above 40" => 8,
            "neither collapsed nor the expression's own size" => 20,
            _ => 60,
        };
        assert!(*times >= least, "{what}: only {times}");
    }
    assert_eq!(seen.len(), 21);
}

/// Left operand's nodes, then the right one's, then the node.
fn is_post_order(nodes: &[Node]) -> bool {
    fn visit(nodes: &[Node], node: usize, next: &mut usize) -> bool {
        let before = nodes[node]
            .operands()
            .is_none_or(|(l, r)| visit(nodes, l, next) && visit(nodes, r, next));
        let in_turn = *next == node;
        *next += 1;
        before && in_turn
    }
    visit(nodes, nodes.len() - 1, &mut 0)
}

fn deadlock_repeated(nodes: &[Node], node: usize, repeated: bool) -> bool {
    match nodes[node] {
        Node::Deadlock => repeated,
        Node::Action(_) => false,
        Node::Star(l, r) => {
            deadlock_repeated(nodes, l, true) || deadlock_repeated(nodes, r, repeated)
        }
        Node::Sum(l, r) | Node::Product(l, r) => {
            deadlock_repeated(nodes, l, repeated) || deadlock_repeated(nodes, r, repeated)
        }
    }
}

fn entries_without_way_back(chart: &oracle::plain::Chart, labels: &[u8]) -> bool {
    chart
        .transitions
        .iter()
        .zip(labels)
        .any(|(t, label)| *label != 0 && !chart.reached(t.to, |index| labels[index] == 0)[t.from])
}
