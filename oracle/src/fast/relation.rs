//! Checks 40 to 45.
//!
//! Expression vertices with equal rows of the relation form a class. First steps
//! with one action and targets of one class form a group: a chart's transition
//! matches all of them or none. So what a vertex can do is a set of groups.
use super::chart::{Chart, Step};
use super::expression::{Expression, FirstSteps, ACTION, PRODUCT, SUM};
use super::sets::{below, bit, lowest, Members, Vertices, BITS};
use super::table::Table;
use super::{refused, Refusal};

type Groups = u64;

/// `next` is all that the transitions of a vertex lead to.
#[inline]
pub(super) fn bisimulation(
    expression: &Expression,
    chart: &Chart,
    relation: &[u8],
    next: impl Fn(u8) -> Vertices,
    room: &mut Room,
) -> Result<(), Refusal> {
    let (rows, rest) = relation.as_chunks();
    let nodes = expression.nodes.len();
    if rows.len() != nodes + 1 || !rest.is_empty() {
        return Err(refused(40, relation.len(), 0, 0));
    }
    let others = rows[1..].iter().fold(0, |all, row| all | set(row));
    let related = set(&rows[0]) | others;
    if related & !below(chart.vertices) != 0 {
        return Err(beyond(rows, chart.vertices));
    }
    if set(&rows[nodes]) & bit(chart.start) == 0 {
        return Err(refused(42, nodes, chart.start, 0));
    }

    let mut matching = Matching {
        room,
        classes: 0,
        highest: 0,
        doubtful: 0,
        lacking: 0,
    };
    matching.find_classes(rows);
    matching.find_groups(expression);
    matching.find_columns(chart.vertices);
    for v in Members(related & !1) {
        matching.compare(v, chart.steps(v.into()), &next);
    }
    let ends_wrong = set(&rows[0]) & !1 != 0 || others & 1 != 0;
    if matching.doubtful | matching.lacking == 0 && !ends_wrong {
        return Ok(());
    }
    match matching.first_wrong(rows, chart, next) {
        Some((u, v)) => Err(matching.refusal(expression, chart, rows, u, v)),
        None => Ok(()),
    }
}

#[inline]
fn set(row: &[u8; 16]) -> Vertices {
    Vertices::from_le_bytes(*row)
}

#[cold]
fn beyond(rows: &[[u8; 16]], vertices: usize) -> Refusal {
    let beyond = |row: &[u8; 16]| set(row) & !below(vertices);
    let u = rows.iter().position(|row| beyond(row) != 0).unwrap_or(0);
    refused(41, u, lowest(beyond(&rows[u])), 0)
}

pub(super) struct Room {
    /// By expression vertex.
    class: Table<u8>,
    groups: Table<Groups>,
    /// By hash of a row: its class, or another one that was there before.
    places: Table<u8>,
    /// By class: its row, the groups that lead to it, and those that all of its
    /// vertices have and that some have.
    row: Table<Vertices>,
    leading: Table<Groups>,
    common: Table<Groups>,
    any: Table<Groups>,
    /// By group, numbered: the row of what it leads to.
    target: Table<Vertices>,
    /// By action, up to the highest of the expression.
    of_action: Table<Groups>,
    /// By chart vertex: the groups that lead to what it is related to, those that
    /// all have, or some, that it is related to, and those that it matches.
    into: Table<Groups>,
    common_of: Table<Groups>,
    any_of: Table<Groups>,
    all_of: Table<Groups>,
    /// The lowest expression vertices of each class and set of groups.
    kinds: Table<u8>,
}

impl Room {
    pub(super) const fn new() -> Room {
        Room {
            class: Table::of(0),
            groups: Table::of(0),
            places: Table::of(0),
            row: Table::of(0),
            leading: Table::of(0),
            common: Table::of(0),
            any: Table::of(0),
            target: Table::of(0),
            of_action: Table::of(0),
            into: Table::of(0),
            common_of: Table::of(0),
            any_of: Table::of(0),
            all_of: Table::of(0),
            kinds: Table::of(0),
        }
    }
}

struct Matching<'a> {
    room: &'a mut Room,
    /// How many.
    classes: u8,
    /// The highest action of the expression.
    highest: u8,
    /// Chart vertices with a transition that no group matches that all have which
    /// they are related to. These may match it by different ones.
    doubtful: Vertices,
    /// Others, which don't match all groups of what they are related to.
    lacking: Vertices,
}

impl Matching<'_> {
    #[inline]
    fn find_classes(&mut self, rows: &[[u8; 16]]) {
        const NONE: u8 = 255;
        // Rows lie where their hash says, or in the next free place after it.
        self.room.places.fill(256, NONE);
        for (u, row) in (0..).zip(rows) {
            let row = set(row);
            let mixed = (row as u64) ^ ((row >> 64) as u64).rotate_left(32);
            let mut place = (mixed.wrapping_mul(0x9E37_79B9_7F4A_7C15) >> 56) as u8;
            let class = loop {
                let class = self.room.places.get(place);
                if class == NONE {
                    self.room.places.set(place, self.classes);
                    break self.new_class(row);
                }
                if self.room.row.get(class) == row {
                    break class;
                }
                place = place.wrapping_add(1);
            };
            self.room.class.set(u, class);
        }
    }

    #[inline]
    fn new_class(&mut self, row: Vertices) -> u8 {
        let class = self.classes;
        self.classes += 1;
        self.room.row.set(class, row);
        self.room.leading.set(class, 0);
        self.room.common.set(class, Groups::MAX);
        self.room.any.set(class, 0);
        class
    }

    #[inline]
    fn find_groups(&mut self, expression: &Expression) {
        let actions = expression.nodes.iter().map(|node| node[1]);
        self.highest = actions.fold(0, u8::max);
        self.room.of_action.fill(self.highest as usize + 1, 0);
        let mut count = 0;
        self.have(0, 0);
        for (k, &[kind, action, left, right]) in (0..).zip(expression.nodes) {
            let groups = if kind >= SUM {
                let of_left = self.room.groups.get(left + 1);
                if kind == PRODUCT {
                    of_left
                } else {
                    of_left | self.room.groups.get(right + 1)
                }
            } else if kind == ACTION {
                let class = self.room.class.get(expression.onward.get(k));
                let (alike, leading) = (
                    self.room.of_action.get(action),
                    self.room.leading.get(class),
                );
                if alike & leading != 0 {
                    alike & leading
                } else {
                    let new = 1 << count;
                    self.room.target.set(count, self.room.row.get(class));
                    count += 1;
                    self.room.of_action.set(action, alike | new);
                    self.room.leading.set(class, leading | new);
                    new
                }
            } else {
                0
            };
            self.have(k + 1, groups);
        }
    }

    #[inline]
    fn have(&mut self, u: u8, groups: Groups) {
        self.room.groups.set(u, groups);
        let class = self.room.class.get(u);
        self.room
            .common
            .set(class, self.room.common.get(class) & groups);
        self.room.any.set(class, self.room.any.get(class) | groups);
    }

    #[inline]
    fn find_columns(&mut self, vertices: usize) {
        self.room.into.fill(vertices, 0);
        self.room.common_of.fill(vertices, Groups::MAX);
        self.room.any_of.fill(vertices, 0);
        for class in 0..self.classes {
            let leading = self.room.leading.get(class);
            let (common, any) = (self.room.common.get(class), self.room.any.get(class));
            for v in Members(self.room.row.get(class)) {
                self.room.into.set(v, self.room.into.get(v) | leading);
                self.room
                    .common_of
                    .set(v, self.room.common_of.get(v) & common);
                self.room.any_of.set(v, self.room.any_of.get(v) | any);
            }
        }
    }

    /// Whether the actions of a row are the expression's.
    #[inline]
    fn knows_actions(&self, steps: &[Step]) -> bool {
        // A row's last action is its highest.
        steps.last().is_none_or(|step| step[1] <= self.highest)
    }

    /// Holds a chart vertex to all that it is related to.
    #[inline]
    fn compare(&mut self, v: u8, steps: &[Step], next: impl Fn(u8) -> Vertices) {
        match self.matched(v, steps, next, self.room.common_of.get(v)) {
            None => self.doubtful |= BITS[v as usize],
            Some(all) if self.room.any_of.get(v) & !all != 0 => {
                self.lacking |= BITS[v as usize];
                self.room.all_of.set(v, all);
            }
            Some(_) => {}
        }
    }

    /// The groups that match some transitions of a chart vertex, where each of
    /// these is matched by one of `by`.
    #[inline]
    fn matched(
        &self,
        v: u8,
        steps: &[Step],
        next: impl Fn(u8) -> Vertices,
        by: Groups,
    ) -> Option<Groups> {
        match steps {
            _ if !self.knows_actions(steps) => None,
            [first, .., last] if first[1] == last[1] && self.are_many(steps) => {
                self.matched_by_sets(first[1], next(v), by)
            }
            _ => self.matched_one_by_one(steps, by),
        }
    }

    /// Whether transitions of one action are more than the groups of it.
    #[inline]
    fn are_many(&self, steps: &[Step]) -> bool {
        const MANY: usize = 16;
        let groups = self.room.of_action.get(steps[0][1]);
        steps.len() >= MANY && steps.len() >= 2 * groups.count_ones() as usize
    }

    /// Of transitions by one action to these vertices.
    #[inline]
    fn matched_by_sets(&self, action: u8, targets: Vertices, by: Groups) -> Option<Groups> {
        let (mut all, mut left) = (0, targets);
        let mut groups = self.room.of_action.get(action);
        while groups != 0 {
            let row = self.room.target.get(groups.trailing_zeros() as u8);
            let group = groups & groups.wrapping_neg();
            groups ^= group;
            if row & targets != 0 {
                all |= group;
            }
            if group & by != 0 {
                left &= !row;
            }
        }
        (left == 0).then_some(all)
    }

    #[inline(never)]
    fn matched_one_by_one(&self, steps: &[Step], by: Groups) -> Option<Groups> {
        let mut all = 0;
        let mut one = |step: &Step| {
            let matched = self.room.of_action.get(step[1]) & self.room.into.get(step[2]);
            all |= matched;
            matched & by != 0
        };
        // By fours, which spares most of the counting.
        let (fours, rest) = steps.as_chunks::<4>();
        let matched = fours.iter().all(|four| four.iter().all(&mut one)) && rest.iter().all(one);
        matched.then_some(all)
    }

    /// The first wrong pair, by row and column.
    #[cold]
    fn first_wrong(
        &mut self,
        rows: &[[u8; 16]],
        chart: &Chart,
        next: impl Fn(u8) -> Vertices,
    ) -> Option<(usize, usize)> {
        let kinds = self.find_kinds(rows.len() as u8);
        let mut first = ends_wrong(rows);
        let mut note = |u: Option<u8>, v: u8| {
            let place = u.map(|u| (u as usize, v as usize));
            first = first.into_iter().chain(place).min();
        };
        for v in Members(self.lacking) {
            let all = self.room.all_of.get(v);
            let wrong = |groups: Groups| groups & !all != 0;
            note(self.first_of_kinds(kinds, v, wrong), v);
        }
        for v in Members(self.doubtful) {
            let steps = chart.steps(v.into());
            let wrong = |groups: Groups| {
                let all = self.matched(v, steps, &next, groups);
                all.is_none_or(|all| groups & !all != 0)
            };
            note(self.first_of_kinds(kinds, v, wrong), v);
        }
        first
    }

    /// How many kinds there are.
    fn find_kinds(&mut self, vertices: u8) -> u8 {
        let mut count = 0;
        for u in 0..vertices {
            let kind = |u: u8| (self.room.class.get(u), self.room.groups.get(u));
            let known = (0..count).any(|place| kind(self.room.kinds.get(place)) == kind(u));
            if !known {
                self.room.kinds.set(count, u);
                count += 1;
            }
        }
        count
    }

    /// The lowest expression vertex that is related to v and has such groups.
    fn first_of_kinds(&self, kinds: u8, v: u8, such: impl Fn(Groups) -> bool) -> Option<u8> {
        let lowest = (0..kinds).map(|place| self.room.kinds.get(place));
        let row = |u: u8| self.room.row.get(self.room.class.get(u));
        let mut related = lowest.filter(|&u| row(u) & BITS[v as usize] != 0);
        related.find(|&u| such(self.room.groups.get(u)))
    }

    #[cold]
    fn refusal(
        &self,
        expression: &Expression,
        chart: &Chart,
        rows: &[[u8; 16]],
        u: usize,
        v: usize,
    ) -> Refusal {
        if (u == 0) != (v == 0) {
            return refused(43, u, v, 0);
        }
        let steps = FirstSteps::of(expression);
        let row = chart.steps(v);
        let matches = |step: usize, t: &Step| {
            let related = set(&rows[steps.target[step] as usize]) & BITS[t[2] as usize] != 0;
            steps.action[step] == t[1] && related
        };
        let of_u = || (0..64).filter(|step| steps.first[u] >> step & 1 == 1);
        let unmatched = |step| !row.iter().any(|t| matches(step, t));
        if let Some(r) = of_u().position(unmatched) {
            return refused(44, u, v, steps.offset(u) + r);
        }
        let unmatched = |t: &Step| !of_u().any(|step| matches(step, t));
        let r = row.iter().position(unmatched).unwrap_or(0);
        refused(45, u, v, chart.row(v).start + r)
    }
}

/// The first pair of which just one is the end.
fn ends_wrong(rows: &[[u8; 16]]) -> Option<(usize, usize)> {
    let of_end = set(&rows[0]) & !1;
    if of_end != 0 {
        return Some((0, lowest(of_end)));
    }
    let u = rows[1..].iter().position(|row| set(row) & 1 != 0)?;
    Some((u + 1, 0))
}
