//! Everything by its plain meaning.

mod chart;
mod expression;
mod extraction;
mod follower;
mod labelling;
mod loop_chart;
mod records;
mod relation;
mod removal;
mod together;
mod way;

pub use chart::{transitions_leaving, Chart, Transition};
pub use expression::{
    climb, expression_chart, read_nodes, remainders, residual, steps, tree, write_chart, Expr,
    Form, Node, Target,
};
pub use extraction::write_expression;
pub use follower::{event, event_lent, restart, restart_lent, RulesFollower, State};
pub use labelling::{
    check_labelling, is_layered_loop_witness, loop_body, loops, read_labels, Loop,
};
pub use loop_chart::{endless_vertices, Subchart};
pub use records::{read_records, LONGEST_FILE};
pub use relation::{check_relation, is_bisimulation, read_relation, Pairs};
pub use removal::{remove, LoopSet};
pub use together::remove_together;
pub use way::shortest_way;

use crate::Answer;

/// The verdict on a yard file.
pub fn check(file: &[u8]) -> Answer {
    match verdict(file) {
        Ok(accepted) => accepted,
        Err(refusal) => refusal,
    }
}

fn verdict(file: &[u8]) -> Result<Answer, Answer> {
    let [expression, chart, labelling, relation] = read_records(file)?;
    let nodes = read_nodes(expression)?;
    let chart = Chart::read(chart)?;
    let labels = read_labels(labelling, &chart)?;
    check_labelling(&chart, &labels)?;
    let expression = expression_chart(&nodes);
    let pairs = read_relation(relation, &expression, &chart)?;
    check_relation(&expression, &chart, &pairs)?;
    Ok(Answer::fine(
        chart.vertices as u64,
        chart.transitions.len() as u64,
        loops(&chart, &labels).len() as u64,
    ))
}
