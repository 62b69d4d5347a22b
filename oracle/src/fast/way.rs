//! The shortest way to the end.
//!
//! Vertices are reached in the order of their lists of events: by shorter lists
//! first, among equals by lower ones. Those with one list are a group. What a
//! group leads to, and none before it does, makes new groups, one for each
//! lowest action. So each transition is read once at most, and none after the
//! group that leads to the end.
use super::chart::Chart;
use super::follower::set_of;
use super::sets::{lowest, Vertices, MOST_VERTICES};
use super::table::Table;
use super::{refused, Refusal};
use crate::Answer;

/// Writes the shortest list of events after which the end is in the set.
pub fn shortest_way(chart: &[u8], state: &[u8], out: &mut [u8]) -> Answer {
    written(chart, state, out).unwrap_or_else(|refusal| refusal)
}

fn written(chart: &[u8], state: &[u8], out: &mut [u8]) -> Result<Answer, Refusal> {
    let mut rows = Table::of(0);
    let chart = Chart::read(chart, &mut rows)?;
    let (set, spoilt) = set_of(state, chart.vertices)?;
    if spoilt {
        return Err(refused(55, 0, 0, 0));
    }
    if set & 1 != 0 {
        return Ok(Answer::fine(0, 0, 0));
    }
    let mut search = Search::of(set);
    let Some((group, event)) = search.last_step(&chart) else {
        return Err(refused(55, 0, 0, 0));
    };
    let mut room = [0; MOST_VERTICES];
    let events = search.list(group, event, &mut room);
    let Some(lent) = out.get_mut(..events.len()) else {
        return Err(refused(54, events.len(), 0, 0));
    };
    lent.copy_from_slice(events);
    Ok(Answer::fine(events.len() as u64, 0, 0))
}

const REACHED: u16 = 0;
/// Above every action.
const UNREACHED: u16 = 256;

/// Vertices with one list of events: that of the group before, and an event.
#[derive(Clone, Copy, Default)]
struct Group {
    before: u8,
    event: u8,
    /// How many vertices are in the groups up to this one.
    past: u8,
}

struct Search {
    /// By vertex: `REACHED` or `UNREACHED`; for one that the group being
    /// followed is the first to lead to, its lowest action there.
    least: [u16; 256],
    /// Those reached, group by group.
    vertices: [u8; MOST_VERTICES],
    count: usize,
    groups: [Group; MOST_VERTICES],
    group_count: usize,
}

impl Search {
    /// The set is the first group.
    fn of(mut set: Vertices) -> Search {
        let mut search = Search {
            least: [UNREACHED; 256],
            vertices: [0; MOST_VERTICES],
            count: 0,
            groups: [Group::default(); MOST_VERTICES],
            group_count: 1,
        };
        while set != 0 {
            let vertex = lowest(set);
            set &= set - 1;
            search.least[vertex] = REACHED;
            search.vertices[search.count] = vertex as u8;
            search.count += 1;
        }
        search.groups[0].past = search.count as u8;
        search
    }

    /// The first group that leads to the end, and its lowest event that does.
    fn last_step(&mut self, chart: &Chart) -> Option<(usize, u8)> {
        let (mut group, mut at) = (0, 0);
        while group < self.group_count {
            let past = self.groups[group].past as usize;
            let mut listed = self.count;
            for i in at..past {
                let row = chart.steps((self.vertices[i] & 127) as usize);
                listed = self.follow(row, listed);
            }
            if self.least[0] != UNREACHED {
                return Some((group, self.least[0] as u8));
            }
            self.place(group, listed);
            at = past;
            group += 1;
        }
        None
    }

    /// Lists what a row leads to and nothing before it does, after the vertices
    /// listed; how many are listed then.
    fn follow(&mut self, row: &[[u8; 4]], mut listed: usize) -> usize {
        let mut step = |&[_, action, to, _]: &[u8; 4]| {
            let least = &mut self.least[to as usize];
            if *least > action as u16 {
                if *least == UNREACHED {
                    self.vertices[listed & 127] = to;
                    listed += 1;
                }
                *least = action as u16;
            }
        };
        // By eights, which spares most of the counting.
        let (eights, rest) = row.as_chunks::<8>();
        for eight in eights {
            eight.iter().for_each(&mut step);
        }
        rest.iter().for_each(step);
        listed
    }

    /// The vertices listed are reached, in groups after those that are there.
    fn place(&mut self, before: usize, listed: usize) {
        let new = &mut self.vertices[self.count..listed];
        new.sort_unstable_by_key(|&vertex| self.least[vertex as usize]);
        let mut last = REACHED;
        for &vertex in &*new {
            let action = std::mem::replace(&mut self.least[vertex as usize], REACHED);
            if action != last {
                last = action;
                self.group_count += 1;
            }
            self.count += 1;
            self.groups[(self.group_count - 1) & 127] = Group {
                before: before as u8,
                event: action as u8,
                past: self.count as u8,
            };
        }
    }

    /// The list of a group and an event after it, in the last of the bytes.
    fn list<'a>(&self, mut group: usize, event: u8, room: &'a mut [u8; MOST_VERTICES]) -> &'a [u8] {
        let mut at = MOST_VERTICES - 1;
        room[at] = event;
        while group != 0 {
            at -= 1;
            room[at] = self.groups[group].event;
            group = self.groups[group].before as usize;
        }
        &room[at..]
    }
}
