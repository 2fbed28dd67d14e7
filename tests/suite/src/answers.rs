//! Holds the checker to answers that a group states.

use crate::certificate::{Certificate, Criterion, List};
use crate::check::NONE;
use crate::checker::Lent;
use crate::compare::Comparer;
use crate::history::History;

/// The number that the checker answers, and its seven places.
pub fn given(comparer: &Comparer, history: &[u8], certificate: &[u8]) -> (u32, [u32; 7]) {
    let mut places = Lent::new(7, |_| 0x5A5A_5A5A);
    let answer = comparer.checker.verdict(history, certificate, &mut places);
    (answer, places.part().try_into().expect("there are seven"))
}

/// The number, the view and the event that the checker answers; the model is compared on the way.
fn said(comparer: &mut Comparer, history: &History, certificate: &[u8]) -> (u32, u32, u32) {
    let text = history.text();
    comparer.check(&text, certificate);
    let (answer, places) = given(comparer, &text, certificate);
    (answer, places[3], places[4])
}

/// Holds the checker to a number, with its view and event, that is stated here by hand.
pub fn hold(comparer: &mut Comparer, name: &str, history: &History, certificate: &[u8], stated: (u32, u32, u32)) {
    if comparer.done() {
        return;
    }
    let said = said(comparer, history, certificate);
    if !comparer.done() {
        comparer.note(said == stated, || {
            format!("{name}: given {said:?}, stated {stated:?}\n{}", String::from_utf8_lossy(&history.text()))
        });
    }
}

/// Holds the checker to 16, in whatever view.
pub fn hold_wrong(comparer: &mut Comparer, name: &str, history: &History, certificate: &[u8]) {
    let text = history.text();
    let answer = comparer.check(&text, certificate);
    if !comparer.done() {
        comparer.note(answer == 16, || format!("{name}: given {answer}, stated 16\n{}", String::from_utf8_lossy(&text)));
    }
}

pub const ACCEPTED: (u32, u32, u32) = (0, NONE, NONE);

/// 16 at the event, in view 0.
pub fn wrong_at(e: usize) -> (u32, u32, u32) {
    (16, 0, e as u32)
}

/// 16 at the event, in the view by which the criterion judges it.
pub fn wrong_by(criterion: Criterion, history: &History, e: usize) -> (u32, u32, u32) {
    match criterion {
        Criterion::Sequential | Criterion::Converge => wrong_at(e),
        Criterion::Pram | Criterion::Strict => (16, history.events[e].process as u32, e as u32),
        Criterion::Weak | Criterion::Causal => (16, e as u32, e as u32),
    }
}

/// A certificate that has all events in number order.
pub fn in_order(history: &History) -> Certificate {
    let all: List = (0..history.events.len()).collect();
    Certificate::new(history, Criterion::Sequential, vec![], vec![all])
}
