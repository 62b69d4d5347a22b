//! Yard files from a seed: accepted ones of many shapes and sizes, and damaged
//! ones for every refusal of the check.

pub mod charts;
mod damage;
pub mod expressions;
pub mod labels;
pub mod lists;
pub mod relations;
mod rng;
pub mod worst;

pub use damage::{damaged, CHECK_REFUSALS};
pub use rng::Rng;

use crate::plain::{expression_chart, read_nodes, Chart};
use charts::{collapsed, reached_part, renamed, rewired, shuffled, unfolded};
use expressions::Shape;

/// The four bodies of a yard file.
#[derive(Clone, PartialEq, Eq, Debug)]
pub struct Yard {
    pub expression: Vec<u8>,
    pub chart: Vec<u8>,
    pub labelling: Vec<u8>,
    pub relation: Vec<u8>,
}

impl Yard {
    /// The file; bodies have to be shorter than 65,536 bytes.
    pub fn file(&self) -> Vec<u8> {
        let bodies = [
            &self.expression,
            &self.chart,
            &self.labelling,
            &self.relation,
        ];
        let mut file = Vec::new();
        for (kind, body) in (1u16..).zip(bodies) {
            file.extend((body.len() as u16).to_le_bytes());
            file.extend(kind.to_le_bytes());
            file.extend(body);
        }
        file
    }
}

/// A file of the mixed corpus: about half are accepted, the others damaged in
/// one place or several.
pub fn file(seed: u64) -> Vec<u8> {
    let mut rng = Rng::new(seed);
    let mut yard = some_yard(&mut rng);
    if rng.percent(50) {
        return yard.file();
    }
    let number = rng.pick(&CHECK_REFUSALS);
    // Not every file can be brought to every refusal.
    for _ in 0..4 {
        if let Some(file) = damaged(&mut rng, &yard, number) {
            return file;
        }
        yard = some_yard(&mut rng);
    }
    yard.file()
}

/// A file that is accepted.
pub fn accepted(seed: u64) -> Yard {
    some_yard(&mut Rng::new(seed))
}

fn some_yard(rng: &mut Rng) -> Yard {
    let (nested, least, most) = match rng.below(100) {
        0..=34 => (false, 1, 7),
        35..=64 => (false, 6, 16),
        65..=79 => (false, 14, 34),
        82..=85 => (false, 34, 64),
        86..=95 => (true, 1, 8),
        96..=97 => (true, 8, 62),
        _ => return worst::some(rng),
    };
    let size = rng.between(least, most);
    let shape = if nested {
        expressions::nested_stars(rng, size)
    } else {
        expressions::random(rng, size)
    };
    yard_of(rng, &shape)
}

/// An accepted file of this expression.
pub fn yard_of(rng: &mut Rng, shape: &Shape) -> Yard {
    let mut expression = expressions::post_order(shape);
    if rng.percent(60) {
        expression = expressions::renumbered(rng, &expression);
    }
    let nodes = read_nodes(&expression).expect("a well-formed expression");
    let of_expression = expression_chart(&nodes);
    let (own, new) = reached_part(&of_expression);

    let drawn = match rng.below(10) {
        0..=1 => Some(own.clone()),
        2..=3 => Some(collapsed(&own)),
        4..=5 => unfolded(rng, &own),
        6..=7 => {
            let small = collapsed(&own);
            unfolded(rng, &small)
        }
        8 => Some(rewired(rng, &own)),
        _ => unfolded(rng, &own).map(|large| rewired(rng, &large)),
    };
    let labelled = drawn.and_then(|chart| {
        let new = shuffled(rng, chart.vertices);
        let chart = renamed(&chart, &new);
        let labels = labels::by_search(rng, &chart)?;
        Some((chart, labels))
    });
    // Where the search finds nothing, the expression's own chart and the
    // refined rules' labels.
    let (chart, labelling) = labelled.unwrap_or_else(|| {
        let by_rules = labels::by_refined_rules(&nodes, &of_expression);
        let kept = of_expression.transitions.iter().zip(by_rules);
        let labels = kept
            .filter(|(t, _)| new[t.from].is_some())
            .map(|(_, label)| label);
        (own, labels.collect())
    });
    let relation = some_relation(rng, &of_expression, &chart);
    Yard {
        expression,
        chart: chart.bytes(),
        labelling,
        relation,
    }
}

fn some_relation(rng: &mut Rng, expression: &Chart, chart: &Chart) -> Vec<u8> {
    let greatest = relations::greatest(expression, chart);
    let mut seeds = vec![(expression.start, chart.start)];
    let pairs = match rng.below(4) {
        0 => greatest,
        1 => {
            let all: Vec<_> = greatest.iter().copied().collect();
            seeds.extend((0..rng.between(1, 4)).map(|_| rng.pick(&all)));
            let thin = rng.percent(50);
            relations::reached(rng, expression, chart, &greatest, seeds, thin)
        }
        kind => relations::reached(rng, expression, chart, &greatest, seeds, kind == 2),
    };
    relations::bytes(expression, &pairs)
}

/// A file in hex, for reports.
pub fn hex(file: &[u8]) -> String {
    file.iter().map(|byte| format!("{byte:02X}")).collect()
}
