//! Several loops out together.
//!
//! In a list that is accepted each loop meets no start of the list but its own.
//! So all of them are searched at once, stopping at each start: no row is read
//! twice, and no vertex followed twice. Where this meets another start, or what
//! breaks a loop, they are searched one after another for what is refused.
use super::chart::Chart;
use super::removal::{loop_body, standing_chart, standing_steps};
use super::sets::{bit, highest, lowest, Vertices, MOST_VERTICES};
use super::table::Table;
use super::{refused, Refusal};
use crate::Answer;

const MOST_LOOPS: usize = 64;

/// Takes out the loops of a list, two bytes each.
pub fn remove_together(chart: &[u8], labels: &[u8], loops: &[u8], standing: &mut [u8]) -> Answer {
    let mut rows = Table::of(0);
    match removable(chart, &mut rows, labels, loops, standing) {
        Ok((chart, loops)) => {
            clear(&chart, labels, &loops, standing);
            Answer::fine(0, 0, 0)
        }
        Err(refusal) => refusal,
    }
}

fn removable<'a>(
    chart: &'a [u8],
    rows: &'a mut Table<u16>,
    labels: &[u8],
    loops: &[u8],
    standing: &[u8],
) -> Result<(Chart<'a>, Loops), Refusal> {
    let chart = standing_chart(chart, rows, labels, standing)?;
    let Some(in_order) = Loops::read(loops) else {
        return Err(refused(56, 0, 0, 0));
    };
    let mut search = Search::of(&chart, standing);
    search.read_all_entries(labels, &in_order);
    if !search.accepts(&in_order) {
        search.one_by_one(&in_order, loops.as_chunks().0)?;
    }
    Ok((chart, in_order))
}

/// For so many loops of one start each loop looks through its row, for more a
/// table by level does.
const FEW: usize = 3;

fn clear(chart: &Chart, labels: &[u8], loops: &Loops, standing: &mut [u8]) {
    let mut keeps = [1; 256];
    for group in loops.by_start() {
        let row = chart.row(start(group[0]));
        let (stands, labels) = (&mut standing[row.clone()], &labels[row]);
        if group.len() <= FEW {
            for &one in group {
                for (byte, &label) in stands.iter_mut().zip(labels) {
                    *byte &= (label as usize != level(one)) as u8;
                }
            }
            continue;
        }
        group.iter().for_each(|&one| keeps[level(one)] = 0);
        for (byte, &label) in stands.iter_mut().zip(labels) {
            *byte &= keeps[label as usize];
        }
        group.iter().for_each(|&one| keeps[level(one)] = 1);
    }
}

/// A list in ascending order, each loop one number: v, then level.
struct Loops {
    list: [u16; MOST_LOOPS],
    count: usize,
}

fn start(one: u16) -> usize {
    (one >> 8) as usize
}

fn level(one: u16) -> usize {
    (one & 255) as usize
}

impl Loops {
    /// None where the list is refused 56.
    fn read(bytes: &[u8]) -> Option<Loops> {
        let (pairs, rest) = bytes.as_chunks();
        if !rest.is_empty() || pairs.len() > MOST_LOOPS {
            return None;
        }
        let mut loops = Loops {
            list: [0; MOST_LOOPS],
            count: pairs.len(),
        };
        for (one, &pair) in loops.list.iter_mut().zip(pairs) {
            *one = u16::from_be_bytes(pair);
        }
        loops.list[..loops.count].sort_unstable();
        loops.all().is_sorted_by(|a, b| a < b).then_some(loops)
    }

    fn all(&self) -> &[u16] {
        &self.list[..self.count]
    }

    /// The loops of each start.
    fn by_start(&self) -> impl Iterator<Item = &[u16]> {
        self.all().chunk_by(|&a, &b| start(a) == start(b))
    }
}

struct Search<'a> {
    chart: &'a Chart<'a>,
    standing: &'a [u8],
    /// What the standing entries of each loop in order lead to. The last one is
    /// for all steps of a start that are no entries of the list.
    entries: [Vertices; MOST_LOOPS + 1],
    starts: Vertices,
    /// What the standing steps of the vertices read lead to; 0 for others.
    next: Successors,
    read: Vertices,
}

impl<'a> Search<'a> {
    #[inline]
    fn of(chart: &'a Chart, standing: &'a [u8]) -> Search<'a> {
        Search {
            chart,
            standing,
            entries: [0; MOST_LOOPS + 1],
            starts: 0,
            next: [0; MOST_VERTICES],
            read: 0,
        }
    }

    fn read_all_entries(&mut self, labels: &[u8], loops: &Loops) {
        let mut places = [MOST_LOOPS as u8; 256];
        let mut first = 0;
        for group in loops.by_start() {
            let v = start(group[0]);
            if v >= self.chart.vertices {
                break;
            }
            self.starts |= bit(v);
            self.read_entries(v, labels, group, first, &mut places);
            first += group.len();
        }
    }

    /// The entries of the loops of one start, the first of which has this place;
    /// `places` is by level, and all `MOST_LOOPS` between the calls.
    fn read_entries(
        &mut self,
        v: usize,
        labels: &[u8],
        group: &[u16],
        first: usize,
        places: &mut [u8; 256],
    ) {
        let row = self.chart.row(v);
        let marks = labels[row.clone()].iter().zip(&self.standing[row]);
        let steps = self.chart.targets(v).zip(marks);
        if group.len() <= FEW {
            for (place, &one) in (first..).zip(group) {
                // Level 0 marks branches and names no loop.
                if level(one) != 0 {
                    self.entries[place] = steps.clone().fold(0, |all, (to, (&label, &stands))| {
                        let is_entry = stands & (label as usize == level(one)) as u8;
                        all | (is_entry as Vertices) << to
                    });
                }
            }
            return;
        }
        for (place, &one) in (first..).zip(group) {
            places[level(one)] = place as u8;
        }
        places[0] = MOST_LOOPS as u8;
        for (to, (&label, &stands)) in steps {
            self.entries[places[label as usize] as usize] |= (stands as Vertices) << to;
        }
        for &one in group {
            places[level(one)] = MOST_LOOPS as u8;
        }
    }

    /// What the standing steps of a vertex lead to.
    fn steps(&mut self, vertex: usize) -> Vertices {
        if self.read & bit(vertex) == 0 {
            self.read |= bit(vertex);
            self.next[vertex] = standing_steps(self.chart, self.standing, vertex);
        }
        self.next[vertex]
    }

    /// Whether nothing is refused, by one search.
    fn accepts(&mut self, loops: &Loops) -> bool {
        let entries = self.entries[..loops.count].iter();
        let mut seen = entries.fold(0, |all, to| all | to);
        let mut todo = seen & !self.starts;
        while todo != 0 {
            let new = self.steps(lowest(todo)) & !seen;
            seen |= new;
            todo = todo & (todo - 1) | new & !self.starts;
        }
        let Some(onward) = onward(&self.next, seen) else {
            return false;
        };
        let end_and_starts = self.starts | 1;
        let mut bodies = loops.all().iter().zip(&self.entries);
        bodies.all(|(&one, &to)| {
            // Where there are entries the start is below 128.
            to != 0 && union(&onward, to) & end_and_starts == bit(start(one))
        })
    }

    /// Refusals 51, 52, 57.
    fn one_by_one(&mut self, in_order: &Loops, list: &[[u8; 2]]) -> Result<(), Refusal> {
        let mut inside = 0;
        for &[v, level] in list {
            let one = u16::from_be_bytes([v, level]);
            let (v, level) = (v as usize, level as usize);
            let place = in_order.all().binary_search(&one);
            let entries = place.map_or(0, |place| self.entries[place]);
            if entries == 0 {
                return Err(refused(51, v, level, 0));
            }
            match loop_body(v, entries, |u| self.steps(u)) {
                Ok(body) => inside |= body & !bit(v),
                Err(broken) => return Err(refused(52, v, level, broken as usize)),
            }
        }
        let is_inside = |&[v, _]: &[u8; 2]| inside & bit(v as usize) != 0;
        match list.iter().position(is_inside) {
            Some(place) => Err(refused(57, place, 0, 0)),
            None => Ok(()),
        }
    }
}

type Successors = [Vertices; MOST_VERTICES];

/// For each vertex of `within` what it leads to without leaving `within`,
/// itself included; None where there is a cycle.
fn onward(next: &Successors, within: Vertices) -> Option<Successors> {
    let mut onward = [0; MOST_VERTICES];
    let mut unseen = within;
    let mut path = [0u8; MOST_VERTICES];
    let mut on_path: Vertices = 0;
    while unseen != 0 {
        let mut depth = 0;
        let mut fresh = Some(highest(unseen));
        loop {
            if let Some(vertex) = fresh {
                unseen &= !bit(vertex);
                on_path |= bit(vertex);
                if next[vertex] & on_path != 0 {
                    return None;
                }
                onward[vertex] = bit(vertex);
                path[depth] = vertex as u8;
                depth += 1;
            }
            let at = path[depth - 1] as usize;
            // A successor that is under another one adds nothing.
            let todo = next[at] & within & !onward[at];
            if todo != 0 {
                let child = highest(todo);
                if unseen & bit(child) != 0 {
                    fresh = Some(child);
                    continue;
                }
                onward[at] |= onward[child];
            } else {
                on_path &= !bit(at);
                depth -= 1;
                if depth == 0 {
                    break;
                }
                onward[path[depth - 1] as usize] |= onward[at];
            }
            fresh = None;
        }
    }
    Some(onward)
}

/// All that is in one of the sets of `members`.
fn union(sets: &Successors, mut members: Vertices) -> Vertices {
    let mut all = 0;
    while members != 0 {
        all |= sets[highest(members)];
        // What is in a set has its own set in it.
        members &= !all;
    }
    all
}
