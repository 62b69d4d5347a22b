//! An expression for a drawn chart: the text of its start.
use super::chart::{Chart, Transition};
use super::expression::{Expr, Form};
use super::labelling::{check_labelling, read_labels};
use crate::Answer;
use std::rc::Rc;

const MOST_NODES: usize = 127;

/// Writes the expression body of the start's text to the beginning of lent
/// bytes. Refusals 20, 21, 30 to 35, 58, 54; none changes a byte.
pub fn write_expression(chart: &[u8], labelling: &[u8], out: &mut [u8]) -> Answer {
    match body(chart, labelling) {
        Err(refusal) => refusal,
        Ok(body) if body.len() > out.len() => Answer::new(54, body.len() as u64, 0, 0),
        Ok(body) => {
            out[..body.len()].copy_from_slice(&body);
            Answer::fine(body.len() as u64, 0, 0)
        }
    }
}

fn body(chart: &[u8], labelling: &[u8]) -> Result<Vec<u8>, Answer> {
    let chart = Chart::read(chart)?;
    let labels = read_labels(labelling, &chart)?;
    check_labelling(&chart, &labels)?;
    let Some(text) = start_text(&chart, &labels) else {
        return Err(Answer::new(58, 0, 0, 0));
    };
    let mut nodes = Vec::new();
    number(&text, &mut nodes);
    Ok(nodes.concat())
}

/// The text of the start; None where it has more than 127 nodes. Chart and
/// labels have to pass.
fn start_text(chart: &Chart, labels: &[u8]) -> Option<Rc<Expr>> {
    let mut texts = Texts {
        chart,
        labels,
        made: 0,
    };
    texts.text(chart.start, 0)
}

/// Texts can be far longer than what is kept of them, so their nodes are counted
/// as they are made; None where one more would be too many.
struct Texts<'a> {
    chart: &'a Chart,
    labels: &'a [u8],
    made: usize,
}

impl Texts<'_> {
    fn made(&mut self, form: Form) -> Option<Rc<Expr>> {
        self.made += 1;
        let occurrence = None;
        (self.made <= MOST_NODES).then(|| Rc::new(Expr { occurrence, form }))
    }

    /// The inner text of w back to `back`; with the end for `back`, its text.
    fn text(&mut self, w: usize, back: usize) -> Option<Rc<Expr>> {
        let repeated = self.sum(w, |label| label != 0, w)?;
        let leaving = self.sum(w, |label| label == 0, back)?;
        self.made(Form::Star(repeated, leaving))
    }

    /// The sum over those transitions of w that have such labels, to the left in
    /// their order.
    fn sum(&mut self, w: usize, such: fn(u8) -> bool, back: usize) -> Option<Rc<Expr>> {
        let mut sum = None;
        for index in self.chart.leaving(w).filter(|&i| such(self.labels[i])) {
            let item = self.item(self.chart.transitions[index], back)?;
            sum = Some(match sum {
                None => item,
                Some(before) => self.made(Form::Sum(before, item))?,
            });
        }
        match sum {
            None => self.made(Form::Deadlock),
            some => some,
        }
    }

    /// The action, times the target's text back to `back` unless it is that.
    fn item(&mut self, t: Transition, back: usize) -> Option<Rc<Expr>> {
        let action = self.made(Form::Action(t.action))?;
        if t.to == back {
            return Some(action);
        }
        let text = self.text(t.to, back)?;
        self.made(Form::Product(action, text))
    }
}

/// Adds an expression's nodes, left part first and itself last; its number.
fn number(e: &Expr, nodes: &mut Vec<[u8; 4]>) -> u8 {
    let mut both = |kind: u8, l: &Expr, r: &Expr| {
        let l = number(l, nodes);
        [kind, 0, l, number(r, nodes)]
    };
    let node = match &e.form {
        Form::Deadlock => [0; 4],
        Form::Action(a) => [1, *a, 0, 0],
        Form::Sum(l, r) => both(2, l, r),
        Form::Product(l, r) => both(3, l, r),
        Form::Star(l, r) => both(4, l, r),
    };
    nodes.push(node);
    (nodes.len() - 1) as u8
}
