//! Expressions as trees, 001's seven rules on them, and the expression's chart.
use super::chart::{Chart, Transition};
use crate::Answer;
use std::rc::Rc;

/// A node as the record holds it; operands are node numbers.
#[derive(Clone, Copy, PartialEq, Eq, Debug)]
pub enum Node {
    Deadlock,
    Action(u8),
    Sum(usize, usize),
    Product(usize, usize),
    Star(usize, usize),
}

impl Node {
    /// Left and right operand, of the kinds that have them.
    pub fn operands(self) -> Option<(usize, usize)> {
        match self {
            Node::Deadlock | Node::Action(_) => None,
            Node::Sum(l, r) | Node::Product(l, r) | Node::Star(l, r) => Some((l, r)),
        }
    }

    /// None where the node is malformed.
    fn read(number: usize, bytes: &[u8]) -> Option<Node> {
        let [kind, action, left, right] = *bytes else {
            return None;
        };
        let (l, r) = (left as usize, right as usize);
        let unused_operands = left == 0 && right == 0;
        let operands_below = l < number && r < number;
        match kind {
            0 if action == 0 && unused_operands => Some(Node::Deadlock),
            1 if action != 0 && unused_operands => Some(Node::Action(action)),
            2 if action == 0 && operands_below => Some(Node::Sum(l, r)),
            3 if action == 0 && operands_below => Some(Node::Product(l, r)),
            4 if action == 0 && operands_below => Some(Node::Star(l, r)),
            _ => None,
        }
    }
}

/// The nodes of an expression body, the root last; refusals 10, 11, 12.
pub fn read_nodes(body: &[u8]) -> Result<Vec<Node>, Answer> {
    if body.is_empty() || body.len() > 508 || body.len() % 4 != 0 {
        return Err(Answer::new(10, body.len() as u64, 0, 0));
    }
    let mut nodes = Vec::new();
    for (number, bytes) in body.chunks(4).enumerate() {
        match Node::read(number, bytes) {
            Some(node) => nodes.push(node),
            None => return Err(Answer::new(11, number as u64, 0, 0)),
        }
    }
    for number in 0..nodes.len() - 1 {
        let uses = nodes
            .iter()
            .filter_map(|node| node.operands())
            .map(|(l, r)| (l == number) as u64 + (r == number) as u64)
            .sum();
        if uses != 1 {
            return Err(Answer::new(12, number as u64, uses, 0));
        }
    }
    Ok(nodes)
}

/// A star expression. `occurrence` is the node it was read from; products that
/// the rules make have none. Equality minds occurrences, so that two
/// occurrences of one subexpression differ; `erased` takes them all away.
#[derive(Clone, PartialEq, Eq, Debug)]
pub struct Expr {
    pub occurrence: Option<usize>,
    pub form: Form,
}

#[derive(Clone, PartialEq, Eq, Debug)]
pub enum Form {
    Deadlock,
    Action(u8),
    Sum(Rc<Expr>, Rc<Expr>),
    Product(Rc<Expr>, Rc<Expr>),
    Star(Rc<Expr>, Rc<Expr>),
}

/// What a transition leads to: 001's termination, or an expression.
#[derive(Clone, PartialEq, Eq, Debug)]
pub enum Target {
    End,
    Expr(Rc<Expr>),
}

impl Expr {
    fn product(left: Rc<Expr>, right: Rc<Expr>) -> Rc<Expr> {
        Rc::new(Expr {
            occurrence: None,
            form: Form::Product(left, right),
        })
    }

    pub fn erased(&self) -> Rc<Expr> {
        let form = match &self.form {
            Form::Deadlock => Form::Deadlock,
            Form::Action(a) => Form::Action(*a),
            Form::Sum(l, r) => Form::Sum(l.erased(), r.erased()),
            Form::Product(l, r) => Form::Product(l.erased(), r.erased()),
            Form::Star(l, r) => Form::Star(l.erased(), r.erased()),
        };
        Rc::new(Expr {
            occurrence: None,
            form,
        })
    }
}

impl Target {
    pub fn erased(&self) -> Target {
        match self {
            Target::End => Target::End,
            Target::Expr(e) => Target::Expr(e.erased()),
        }
    }
}

/// The transitions that 001's seven rules derive for an expression.
pub fn steps(e: &Rc<Expr>) -> Vec<(u8, Target)> {
    let mut derived = Vec::new();
    match &e.form {
        Form::Deadlock => {}
        Form::Action(a) => derived.push((*a, Target::End)),
        Form::Sum(e1, e2) => {
            derived.extend(steps(e1));
            derived.extend(steps(e2));
        }
        Form::Product(e1, e2) => {
            for (a, xi) in steps(e1) {
                let after = match xi {
                    Target::Expr(e1_) => Expr::product(e1_, e2.clone()),
                    Target::End => e2.clone(),
                };
                derived.push((a, Target::Expr(after)));
            }
        }
        Form::Star(e1, e2) => {
            for (a, xi) in steps(e1) {
                let after = match xi {
                    Target::Expr(e1_) => Expr::product(e1_, e.clone()),
                    Target::End => e.clone(),
                };
                derived.push((a, Target::Expr(after)));
            }
            derived.extend(steps(e2));
        }
    }
    derived
}

/// The tree of each node, occurrences kept. Node `k`'s is at `k`.
fn trees(nodes: &[Node]) -> Vec<Rc<Expr>> {
    let mut trees: Vec<Rc<Expr>> = Vec::new();
    for (number, node) in nodes.iter().enumerate() {
        let at = |operand: usize| trees[operand].clone();
        let form = match *node {
            Node::Deadlock => Form::Deadlock,
            Node::Action(a) => Form::Action(a),
            Node::Sum(l, r) => Form::Sum(at(l), at(r)),
            Node::Product(l, r) => Form::Product(at(l), at(r)),
            Node::Star(l, r) => Form::Star(at(l), at(r)),
        };
        trees.push(Rc::new(Expr {
            occurrence: Some(number),
            form,
        }));
    }
    trees
}

/// The root's expression, occurrences kept.
pub fn tree(nodes: &[Node]) -> Rc<Expr> {
    trees(nodes)[nodes.len() - 1].clone()
}

/// The node's number one up, and whether it is that one's left operand.
fn parent(nodes: &[Node], node: usize) -> Option<(usize, bool)> {
    nodes.iter().enumerate().find_map(|(up, n)| {
        let (l, r) = n.operands()?;
        if l == node {
            Some((up, true))
        } else if r == node {
            Some((up, false))
        } else {
            None
        }
    })
}

/// What remains after a node, in turn: the nodes that the climb from it stops
/// at, when it goes on each time from where it stopped.
pub fn remainders(nodes: &[Node], node: usize) -> Vec<usize> {
    let mut remaining = Vec::new();
    let mut at = node;
    while let Some((up, is_left)) = parent(nodes, at) {
        match nodes[up] {
            Node::Product(_, right) if is_left => remaining.push(right),
            Node::Star(..) if is_left => remaining.push(up),
            _ => {}
        }
        at = up;
    }
    remaining
}

/// The node that a climb from `node` goes to; None is the end.
pub fn climb(nodes: &[Node], node: usize) -> Option<usize> {
    remainders(nodes, node).first().copied()
}

/// The residual of vertex `node` + 1: the node multiplied on the right by its
/// remainders in turn. Occurrences are kept.
pub fn residual(nodes: &[Node], node: usize) -> Rc<Expr> {
    let trees = trees(nodes);
    multiplied(&trees, nodes, node)
}

fn multiplied(trees: &[Rc<Expr>], nodes: &[Node], node: usize) -> Rc<Expr> {
    remainders(nodes, node)
        .into_iter()
        .fold(trees[node].clone(), |e, after| {
            Expr::product(e, trees[after].clone())
        })
}

/// The node at the head of a residual: the first factor that was read from
/// the record, products made by the rules taken apart.
fn head(e: &Expr) -> usize {
    match (e.occurrence, &e.form) {
        (Some(node), _) => node,
        (None, Form::Product(first, _)) => head(first),
        (None, _) => unreachable!("the rules make only products"),
    }
}

/// The expression's chart. The rules are applied to residuals with occurrences
/// kept; a derived expression is the vertex whose residual it is.
pub fn expression_chart(nodes: &[Node]) -> Chart {
    let trees = trees(nodes);
    let residuals: Vec<Rc<Expr>> = (0..nodes.len())
        .map(|k| multiplied(&trees, nodes, k))
        .collect();
    let mut transitions = Vec::new();
    for (k, from) in residuals.iter().enumerate() {
        for (action, xi) in steps(from) {
            let to = match xi {
                Target::End => 0,
                Target::Expr(e) => {
                    let node = head(&e);
                    assert!(
                        e == residuals[node],
                        "a derived expression is no vertex's residual"
                    );
                    node + 1
                }
            };
            transitions.push(Transition {
                from: k + 1,
                action,
                to,
            });
        }
    }
    transitions.sort();
    transitions.dedup();
    Chart {
        vertices: nodes.len() + 1,
        start: nodes.len(),
        transitions,
    }
}

/// Writes the chart of an expression body into lent bytes; refusals 10, 11,
/// 12, 54. The answer's p is its length; bytes past it are kept.
pub fn write_chart(body: &[u8], out: &mut [u8]) -> Answer {
    let nodes = match read_nodes(body) {
        Ok(nodes) => nodes,
        Err(refusal) => return refusal,
    };
    let bytes = expression_chart(&nodes).bytes();
    if out.len() < bytes.len() {
        return Answer::new(54, bytes.len() as u64, 0, 0);
    }
    out[..bytes.len()].copy_from_slice(&bytes);
    Answer::fine(bytes.len() as u64, 0, 0)
}
