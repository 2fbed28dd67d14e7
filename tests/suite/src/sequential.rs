//! One line (document 02, T-11): the sequential certificate of an accepted one whose causal order orders every two updates.

use crate::certificate::{Certificate, Criterion, List};
use crate::check::Rules;
use crate::history::{Event, History};
use crate::objects::Op;

/// write, push and pop are updates, whatever their answers.
pub fn is_update(event: &Event) -> bool {
    matches!(event.op, Op::Write | Op::Push | Op::Pop)
}

/// Is it written from certificates of this criterion? A pram or sequential one is 17.
pub fn is_source(criterion: Criterion) -> bool {
    match criterion {
        Criterion::Weak | Criterion::Causal | Criterion::Strict | Criterion::Converge => true,
        Criterion::Pram | Criterion::Sequential => false,
    }
}

/// Does the causal order leave two updates unordered?
pub fn crosses(history: &History, certificate: &Certificate) -> bool {
    let ordered = |a: usize, b: usize| certificate.pasts[b].contains(&a) || certificate.pasts[a].contains(&b);
    let updates: List = (0..history.events.len()).filter(|e| is_update(&history.events[*e])).collect();
    updates.iter().any(|a| updates.iter().any(|b| a != b && !ordered(*a, *b)))
}

/// Updates in causal order, each read or peek after the last update in its past (or first of all) and before the next
/// update, several at one place by rising number. Where every two updates are ordered, so many updates stand before an
/// event as are in its past.
pub fn line(history: &History, certificate: &Certificate) -> List {
    let is_update = |e: usize| is_update(&history.events[e]);
    let updates_before = |e: usize| certificate.pasts[e].iter().filter(|f| is_update(**f)).count();
    let mut line: List = (0..history.events.len()).collect();
    line.sort_by_key(|e| (updates_before(*e), is_update(*e), *e));
    line
}

/// What the operation answers to two texts, buffer aside: the refusal's number or the sequential text.
pub fn sequential_texts<R: Rules + ?Sized>(rules: &R, history: &[u8], certificate: &[u8]) -> Result<Vec<u8>, u32> {
    let (history, certificate) = rules.read_both(history, certificate).map_err(|refusal| refusal.answer)?;
    if !is_source(certificate.criterion) {
        return Err(17);
    }
    match rules.answer_to(&history, &certificate) {
        0 if crosses(&history, &certificate) => Err(26),
        0 => {
            let line = line(&history, &certificate);
            Ok(Certificate::new(&history, Criterion::Sequential, vec![], vec![line]).text())
        }
        answer => Err(answer),
    }
}
