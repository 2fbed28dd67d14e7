//! Weakening: which pairs there are, and the wanted criterion's certificate.

use crate::certificate::{Certificate, Criterion, List};
use crate::check::Rules;
use crate::history::History;

/// The weakened certificate, or None if it isn't one of the pairs.
pub fn weakened(history: &History, certificate: &Certificate, wanted: Criterion) -> Option<Certificate> {
    use Criterion::{Causal, Converge, Pram, Sequential, Strict, Weak};
    let (pasts, orders): (Vec<List>, Vec<List>) = match (certificate.criterion, wanted) {
        // Each to itself, text unchanged.
        (given, wanted) if given == wanted => return Some(certificate.clone()),
        // past(e) is what precedes e; views are the whole order, or its part up to and with e.
        (Sequential, _) => {
            let order = &certificate.views[0].order;
            let place = |e: usize| order.iter().position(|entry| *entry == e).expect("an accepted view has every event");
            let past = |e: usize| {
                let mut past = order[..place(e)].to_vec();
                past.sort_unstable();
                past
            };
            let events = history.events.len();
            let orders = match wanted {
                Weak | Causal => (0..events).map(|e| order[..=place(e)].to_vec()).collect(),
                _ => wanted.view_numbers(history).iter().map(|_| order.clone()).collect(),
            };
            ((0..events).map(past).collect(), orders)
        }
        // Cut to past(e) and e.
        (Converge, Weak) => {
            let order = &certificate.views[0].order;
            let cut = |(e, past): (usize, &List)| {
                order.iter().copied().filter(|entry| *entry == e || past.contains(entry)).collect()
            };
            (certificate.pasts.clone(), certificate.pasts.iter().enumerate().map(cut).collect())
        }
        // The same lists.
        (Causal, Weak) => (certificate.pasts.clone(), certificate.views.iter().map(|view| view.order.clone()).collect()),
        // The view of the process's last event, then all other events rising.
        (Causal, Pram) => {
            let whole = |process: &usize| {
                let last = history.events.iter().rposition(|event| event.process == *process).expect("the process has events");
                let mut order = certificate.views[last].order.clone();
                order.extend((0..history.events.len()).filter(|event| !certificate.views[last].order.contains(event)));
                order
            };
            (vec![], history.processes().iter().map(whole).collect())
        }
        // The same pasts; each event's view is its process's view up to and with it.
        (Strict, Causal | Weak) => {
            let part = |e: usize| {
                let process = history.events[e].process;
                let view = certificate.views.iter().find(|view| view.number == process).expect("the process has a view");
                let place = view.order.iter().position(|entry| *entry == e).expect("an accepted view has every event");
                view.order[..=place].to_vec()
            };
            (certificate.pasts.clone(), (0..history.events.len()).map(part).collect())
        }
        // The same views.
        (Strict, Pram) => (vec![], certificate.views.iter().map(|view| view.order.clone()).collect()),
        _ => return None,
    };
    Some(Certificate::new(history, wanted, pasts, orders))
}

/// What the weakening of two texts answers, buffer aside: the refusal's number or the weakened text.
pub fn weaken_texts(rules: &dyn Rules, history: &[u8], certificate: &[u8], wanted: u32) -> Result<Vec<u8>, u32> {
    let (history, certificate) = rules.read_both(history, certificate).map_err(|refusal| refusal.answer)?;
    let wanted = rules.wanted(wanted).ok_or(17u32)?;
    // Whether it is a pair depends on the two criteria alone; the lists are only used when the check accepts.
    if !rules.is_pair(certificate.criterion, wanted) {
        return Err(17);
    }
    match rules.refusal(&history, &certificate) {
        0 => Ok(rules.weakened(&history, &certificate, wanted).expect("it is a pair").text()),
        answer => Err(answer),
    }
}

/// The pairs.
pub fn is_pair(given: Criterion, wanted: Criterion) -> bool {
    use Criterion::{Causal, Converge, Pram, Sequential, Strict, Weak};
    match (given, wanted) {
        (Sequential, _) | (Converge | Causal, Weak) | (Causal, Pram) | (Strict, Causal | Weak | Pram) => true,
        _ => given == wanted,
    }
}
