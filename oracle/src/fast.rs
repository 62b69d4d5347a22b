//! The same calls for speed: sets of vertices are `u128`, sets of an
//! expression's first steps are `u64`, transitions are read where they lie, and
//! tables are written no further than the file goes.
//!
//! Nothing here is shared with `plain` but the answer's form.
mod chart;
mod expression;
mod extraction;
mod follower;
mod labelling;
mod records;
mod relation;
mod removal;
mod sets;
mod table;
mod together;
mod way;

pub use chart::transitions_leaving;
pub use expression::write_chart;
pub use extraction::write_expression;
pub use follower::{event, event_lent, restart, restart_lent};
pub use removal::remove;
pub use together::remove_together;
pub use way::shortest_way;

use crate::Answer;
use chart::Chart;
use expression::Expression;
use std::cell::RefCell;
use table::Table;

type Refusal = Answer;

/// The tables of a check; an expression for a chart needs some of them.
struct Room {
    onward: Table<u8>,
    rows: Table<u16>,
    labelling: labelling::Room,
    relation: relation::Room,
}

impl Room {
    const fn new() -> Room {
        Room {
            onward: Table::of(0),
            rows: Table::of(0),
            labelling: labelling::Room::new(),
            relation: relation::Room::new(),
        }
    }
}

thread_local! {
    // Lent to each call, which then has nothing to clear but what it reads.
    static ROOM: RefCell<Room> = const { RefCell::new(Room::new()) };
}

#[inline]
fn with_room(call: impl FnOnce(&mut Room) -> Result<Answer, Refusal>) -> Result<Answer, Refusal> {
    ROOM.with_borrow_mut(|room| {
        if cfg!(debug_assertions) {
            *room = Room::new();
        }
        call(room)
    })
}

/// The verdict on a yard file.
pub fn check(file: &[u8]) -> Answer {
    with_room(|room| verdict(file, room)).unwrap_or_else(|refusal| refusal)
}

fn verdict(file: &[u8], room: &mut Room) -> Result<Answer, Refusal> {
    let [expression, chart, labels, relation] = records::records(file)?;
    let expression = Expression::read(expression, &mut room.onward)?;
    let chart = Chart::read(chart, &mut room.rows)?;
    let loops = labelling::labelling(&chart, labels, &mut room.labelling)?;
    let next = |v| room.labelling.next(v);
    relation::bisimulation(&expression, &chart, relation, next, &mut room.relation)?;
    Ok(Answer::fine(
        chart.vertices as u64,
        chart.count() as u64,
        loops,
    ))
}

#[cold]
fn refused(n: u64, p: usize, q: usize, r: usize) -> Refusal {
    Answer::new(n, p as u64, q as u64, r as u64)
}
