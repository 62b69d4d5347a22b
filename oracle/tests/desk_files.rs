//! The cases of document 01's last section, starred and not, in its words.
mod common;
mod followers;
mod removals;
use common::{both, chart, g, two_loops};
use oracle::gen::Yard;
use oracle::{fast, plain, Answer};

fn says(yard: &Yard, line: &str) {
    assert_eq!(both(&yard.file(), &line).to_string(), line);
}

fn with(change: impl FnOnce(&mut Yard)) -> Yard {
    let mut yard = g();
    change(&mut yard);
    yard
}

#[test]
fn g_has_the_document_s_bytes() {
    let text = "0C 00 01 00 01 01 00 00 01 02 00 00 04 00 00 01 \
                0C 00 02 00 02 01 02 00 01 01 01 00 01 02 00 00 \
                02 00 03 00 01 00 40 00 04 00";
    let mut bytes: Vec<u8> = text
        .split_whitespace()
        .map(|b| u8::from_str_radix(b, 16).unwrap())
        .collect();
    for first in [0x01, 0x00, 0x00, 0x02] {
        bytes.push(first);
        bytes.extend([0; 15]);
    }
    assert_eq!(bytes.len(), 106);
    assert_eq!(g().file(), bytes);
}

#[test]
fn accepted_empty_and_a_byte_more() {
    says(&g(), "accepted 2 2 1");
    assert_eq!(both(&[], &"empty").to_string(), "refused 2 1 0 0");
    let mut file = g().file();
    file.push(0);
    assert_eq!(both(&file, &"a byte more").to_string(), "refused 4 106 0 0");
}

#[test]
fn labels() {
    says(&with(|y| y.labelling = vec![0, 0]), "refused 32 1 0 0");
    says(&with(|y| y.labelling = vec![1, 1]), "refused 34 1 1 0");
    says(&with(|y| y.labelling = vec![1, 2]), "refused 33 1 2 0");
}

#[test]
fn relations() {
    says(&with(|y| y.relation[48] = 0), "refused 42 3 1 0");
    says(&with(|y| y.relation[0] = 0), "refused 44 3 1 3");
    says(&with(|y| y.relation[0] = 3), "refused 43 0 1 0");
}

#[test]
fn root_with_one_operand_twice() {
    says(
        &with(|y| y.expression[8..].copy_from_slice(&[4, 0, 0, 0])),
        "refused 12 0 2 0",
    );
}

#[test]
fn expression_chart_of_g() {
    let wanted = [4, 3, 4, 0, 1, 1, 3, 0, 2, 2, 0, 0, 3, 1, 3, 0, 3, 2, 0, 0];
    for write_chart in [plain::write_chart, fast::write_chart] {
        let mut out = [0xEE; 23];
        assert_eq!(
            write_chart(&g().expression, &mut out),
            Answer::fine(20, 0, 0)
        );
        assert_eq!(out[..20], wanted);
        assert_eq!(out[20..], [0xEE; 3]);

        let mut short = [0xEE; 19];
        assert_eq!(
            write_chart(&g().expression, &mut short),
            Answer::new(54, 20, 0, 0)
        );
        assert_eq!(short, [0xEE; 19]);

        let mut exact = [0xEE; 20];
        assert_eq!(
            write_chart(&g().expression, &mut exact),
            Answer::fine(20, 0, 0)
        );
        assert_eq!(exact, wanted);
    }
}

#[test]
fn following_g() {
    followers::starred_run(followers::FAST);
}

#[test]
fn loop_inside_a_loop() {
    removals::loop_inside_a_loop(fast::remove);
    says(
        &with(|y| {
            y.chart = two_loops().bytes();
            y.labelling = vec![1, 0, 1, 0];
        }),
        "refused 35 1 1 2",
    );
}

#[test]
fn limits_of_the_expression() {
    // 63 sums of 64 actions: 127 nodes.
    let mut body = vec![1, 1, 0, 0];
    for last in (0..126u8).step_by(2) {
        body.extend([1, 1, 0, 0, 2, 0, last, last + 1]);
    }
    assert_eq!(body.len(), 508);
    // a + a and so on: one transition from the root to the end.
    let yard = Yard {
        chart: chart(2, 1, &[(1, 1, 0)]).bytes(),
        labelling: vec![0],
        relation: {
            let mut rows = vec![0; 128 * 16];
            rows[0] = 1;
            rows[127 * 16] = 2;
            rows
        },
        expression: body.clone(),
    };
    says(&yard, "accepted 2 1 0");
    body.extend([0, 0, 0, 0]);
    says(&with(|y| y.expression = body), "refused 10 512 0 0");
}

#[test]
fn limits_of_the_chart() {
    // The start has 128 × 64 steps in all: 64 or 65 a vertex to all vertices.
    let panel = |vertices: usize, count: usize| {
        let mut steps = Vec::new();
        'all: for from in 1..vertices {
            for action in 1..=2 {
                for to in 0..vertices {
                    if steps.len() == count {
                        break 'all;
                    }
                    steps.push((from, action, to));
                }
            }
        }
        assert_eq!(steps.len(), count);
        chart(vertices, 1, &steps).bytes()
    };
    let labelled = |vertices, count| {
        with(|y| {
            y.chart = panel(vertices, count);
            y.labelling = vec![0; count];
        })
    };
    // Past 20 and 21 both of them: vertex 1 branches to itself.
    says(&labelled(128, 8192), "refused 32 1 0 0");
    says(&labelled(129, 8192), "refused 20 0 0 0");
    says(&labelled(128, 8193), "refused 20 0 0 0");
    says(
        &with(|y| y.chart = vec![128, 127, 0, 0]),
        "refused 30 2 0 0",
    );
    says(&with(|y| y.chart = vec![2, 2, 0, 0]), "refused 20 0 0 0");
    says(&with(|y| y.chart = vec![2, 0, 0, 0]), "refused 20 0 0 0");
    says(&with(|y| y.chart = vec![1, 1, 0, 0]), "refused 20 0 0 0");
    says(&with(|y| y.chart = vec![2, 1, 0]), "refused 20 0 0 0");
}

#[test]
fn the_longest_file_and_one_byte_more() {
    let mut file = oracle::gen::worst::full_relation().file();
    assert_eq!(file.len(), 43_536);
    let answer = both(&file, &"longest file");
    assert_eq!((answer.n, answer.p, answer.q), (0, 128, 8192));
    file.push(0);
    assert_eq!(both(&file, &"one more").to_string(), "refused 1 0 0 0");
    // Length comes before all else.
    file.fill(0xFF);
    assert_eq!(both(&file, &"one more").to_string(), "refused 1 0 0 0");
}

#[test]
fn order_of_the_transfer_s_refusals() {
    let file = g().file();
    let refused = |change: &dyn Fn(&mut Vec<u8>)| {
        let mut file = file.clone();
        change(&mut file);
        both(&file, &"transfer").to_string()
    };
    assert_eq!(refused(&|f| f.truncate(3)), "refused 2 1 0 0");
    // Kind before body, header before kind.
    assert_eq!(refused(&|f| (f[2] = 7, f.truncate(4)).1), "refused 3 1 7 0");
    assert_eq!(refused(&|f| (f[2] = 7, f.truncate(3)).1), "refused 2 1 0 0");
    assert_eq!(refused(&|f| f[3] = 1), "refused 3 1 257 0");
    assert_eq!(refused(&|f| f.truncate(15)), "refused 2 1 0 0");
    assert_eq!(refused(&|f| f.truncate(16)), "refused 2 2 0 0");
    assert_eq!(refused(&|f| f.truncate(34)), "refused 2 3 0 0");
    assert_eq!(refused(&|f| f.truncate(105)), "refused 2 4 0 0");
    // A later record's kind comes before an earlier body's fault.
    assert_eq!(refused(&|f| (f[4] = 9, f[40] = 9).1), "refused 3 4 9 0");
}

// The document's "mistakes to catch".

#[test]
fn deadlock_is_not_the_end() {
    // The action 1 followed by deadlock, against a chart that ends.
    let mut yard = with(|y| {
        y.expression = vec![1, 1, 0, 0, 0, 0, 0, 0, 3, 0, 0, 1];
        y.chart = chart(2, 1, &[(1, 1, 0)]).bytes();
        y.labelling = vec![0];
        y.relation.fill(0);
        y.relation[0] = 1;
        y.relation[48] = 2;
    });
    says(&yard, "refused 44 3 1 1");
    yard.relation[32] = 1;
    says(&yard, "refused 43 2 0 0");
    yard.relation[32] = 4;
    yard.chart = chart(3, 1, &[(1, 1, 2)]).bytes();
    says(&yard, "accepted 3 1 0");
    // The end against a chart's deadlock: neither has a step.
    yard.relation[0] = 5;
    says(&yard, "refused 43 0 2 0");
}

#[test]
fn matching_goes_both_ways() {
    let more = with(|y| {
        y.chart = chart(2, 1, &[(1, 1, 1), (1, 2, 0), (1, 3, 0)]).bytes();
        y.labelling = vec![1, 0, 0];
    });
    says(&more, "refused 45 3 1 2");
    let fewer = with(|y| {
        y.chart = chart(2, 1, &[(1, 1, 1)]).bytes();
        y.labelling = vec![1];
    });
    says(&fewer, "refused 44 3 1 3");
}

#[test]
fn a_body_stops_at_its_vertex() {
    // Vertex 1's loop must not be followed on to the end by 1's own branch.
    says(&g(), "accepted 2 2 1");
    // Nor to vertex 2 with its higher level.
    let yard = with(|y| {
        y.chart = chart(3, 1, &[(1, 1, 1), (1, 2, 2), (2, 1, 2)]).bytes();
        y.labelling = vec![1, 0, 9];
        y.relation.fill(0);
    });
    says(&yard, "refused 42 3 1 0");
}

#[test]
fn equal_levels_inside_each_other() {
    let steps = [(1, 1, 2), (2, 1, 2), (2, 2, 1)];
    let yard = |labels: [u8; 3]| {
        with(|y| {
            y.chart = chart(3, 1, &steps).bytes();
            y.labelling = labels.to_vec();
            y.relation.fill(0);
        })
    };
    says(&yard([3, 3, 0]), "refused 35 1 3 2");
    says(&yard([3, 4, 0]), "refused 35 1 3 2");
    says(&yard([4, 3, 0]), "refused 42 3 1 0");
}

#[test]
fn transitions_leaving_a_vertex() {
    let panel = chart(4, 1, &[(1, 1, 2), (1, 3, 0), (3, 1, 2)]).bytes();
    for leaving in [plain::transitions_leaving, fast::transitions_leaving] {
        assert_eq!(leaving(&panel, 1), [1, 1, 2, 0, 1, 3, 0, 0]);
        assert_eq!(leaving(&panel, 3), [3, 1, 2, 0]);
        // It is a part of the caller's own bytes.
        assert!(std::ptr::eq(leaving(&panel, 3), &panel[12..16]));
        for none in [0, 2, 4, 128, 256 + 1, u64::MAX] {
            assert!(leaving(&panel, none).is_empty(), "vertex {none}");
        }
        assert!(leaving(&panel[..15], 1).is_empty());
        let mut unordered = panel.clone();
        unordered[9] = 0;
        assert!(leaving(&unordered, 1).is_empty());
    }
}
