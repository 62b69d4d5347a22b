//! Expressions of many shapes, and their numberings.
use super::rng::Rng;

/// A tree before its nodes are numbered.
#[derive(Clone, Debug)]
pub enum Shape {
    Deadlock,
    Action(u8),
    /// Kind 2, 3 or 4.
    Both(u8, Box<Shape>, Box<Shape>),
}

impl Shape {
    pub fn sum(left: Shape, right: Shape) -> Shape {
        Shape::Both(2, Box::new(left), Box::new(right))
    }

    pub fn product(left: Shape, right: Shape) -> Shape {
        Shape::Both(3, Box::new(left), Box::new(right))
    }

    pub fn star(left: Shape, right: Shape) -> Shape {
        Shape::Both(4, Box::new(left), Box::new(right))
    }

    /// The sum of actions 1 to `count`, leaning left.
    pub fn sum_of_actions(count: u8) -> Shape {
        (2..=count).fold(Shape::Action(1), |sum, a| Shape::sum(sum, Shape::Action(a)))
    }

    fn leaves(&self) -> usize {
        match self {
            Shape::Both(_, l, r) => l.leaves() + r.leaves(),
            _ => 1,
        }
    }
}

/// What one file's expressions are like.
struct Taste {
    kinds: Vec<u8>,
    actions: Vec<u8>,
    deadlocks: usize,
    /// How often an operand is a copy of the other.
    copies: usize,
    /// Where leaves go: 0 evenly, 1 mostly left, 2 mostly right.
    lean: usize,
}

/// A random expression with the given number of leaves (1 to 64).
pub fn random(rng: &mut Rng, leaves: usize) -> Shape {
    let mut kinds = Vec::new();
    for kind in 2..=4u8 {
        kinds.extend(vec![kind; rng.pick(&[0, 1, 1, 2, 4])]);
    }
    if kinds.is_empty() {
        kinds = vec![2, 3, 4];
    }
    let actions = match rng.below(4) {
        0 => vec![1],
        1 => vec![1, 2],
        2 => (1..=rng.between(3, 6) as u8).collect(),
        _ => (0..rng.between(1, 12))
            .map(|_| rng.between(1, 255) as u8)
            .collect(),
    };
    let taste = Taste {
        kinds,
        actions,
        deadlocks: rng.pick(&[0, 0, 5, 15, 35]),
        copies: rng.pick(&[0, 0, 5, 25]),
        lean: rng.below(3),
    };
    grown(rng, &taste, leaves)
}

fn grown(rng: &mut Rng, taste: &Taste, leaves: usize) -> Shape {
    if leaves == 1 {
        return if rng.percent(taste.deadlocks) {
            Shape::Deadlock
        } else {
            Shape::Action(rng.pick(&taste.actions))
        };
    }
    let kind = rng.pick(&taste.kinds);
    if leaves % 2 == 0 && rng.percent(taste.copies) {
        let one = grown(rng, taste, leaves / 2);
        return Shape::Both(kind, Box::new(one.clone()), Box::new(one));
    }
    let small = rng.between(1, (leaves - 1).min(3));
    let left = match taste.lean {
        1 if rng.percent(85) => leaves - small,
        2 if rng.percent(85) => small,
        _ => rng.between(1, leaves - 1),
    };
    let (l, r) = (grown(rng, taste, left), grown(rng, taste, leaves - left));
    Shape::Both(kind, Box::new(l), Box::new(r))
}

/// Stars in the left operand of stars, `depth` deep, some with a product or a
/// deadlock between.
pub fn nested_stars(rng: &mut Rng, depth: usize) -> Shape {
    let actions = rng.pick(&[1usize, 2, 5, 200]);
    let leaf = |rng: &mut Rng| Shape::Action(rng.between(1, actions) as u8);
    let mut inner = leaf(rng);
    for _ in 0..depth {
        let leaves = inner.leaves();
        let exit = if rng.percent(10) {
            Shape::Deadlock
        } else {
            leaf(rng)
        };
        inner = match rng.below(4) {
            0 if leaves < 60 => Shape::star(Shape::product(leaf(rng), inner), exit),
            1 if leaves < 60 => Shape::star(Shape::sum(inner, leaf(rng)), exit),
            2 if leaves < 60 => Shape::star(Shape::product(inner, leaf(rng)), exit),
            _ if leaves < 62 => Shape::star(inner, exit),
            _ => return inner,
        };
    }
    inner
}

/// Post-order, the left operand's nodes first.
pub fn post_order(shape: &Shape) -> Vec<u8> {
    let mut body = Vec::new();
    write(shape, &mut body);
    body
}

fn write(shape: &Shape, body: &mut Vec<u8>) -> u8 {
    let node = match shape {
        Shape::Deadlock => [0, 0, 0, 0],
        Shape::Action(a) => [1, *a, 0, 0],
        Shape::Both(kind, l, r) => {
            let l = write(l, body);
            [*kind, 0, l, write(r, body)]
        }
    };
    body.extend(node);
    (body.len() / 4 - 1) as u8
}

/// Another numbering of an expression body: any in which operands are lower
/// and the root is last.
pub fn renumbered(rng: &mut Rng, body: &[u8]) -> Vec<u8> {
    let nodes: Vec<&[u8]> = body.chunks(4).collect();
    let has_operands = |node: usize| nodes[node][0] >= 2;
    let operands = |node: usize| [nodes[node][2] as usize, nodes[node][3] as usize];
    let mut number = vec![None; nodes.len()];
    let mut numbered = Vec::new();
    for next in 0..nodes.len() {
        let ready: Vec<usize> = (0..nodes.len())
            .filter(|&node| number[node].is_none())
            .filter(|&n| !has_operands(n) || operands(n).iter().all(|&o| number[o].is_some()))
            .collect();
        let node = rng.pick(&ready);
        number[node] = Some(next as u8);
        let mut bytes = nodes[node].to_vec();
        if has_operands(node) {
            for (field, operand) in operands(node).into_iter().enumerate() {
                bytes[2 + field] = number[operand].expect("operands have their number");
            }
        }
        numbered.extend(bytes);
    }
    numbered
}
