//! Random histories, and certificates of them that are accepted.

use crate::certificate::{Certificate, Criterion, List};
use crate::check::Document01;
use crate::history::{Event, History, CAPACITY_LIMIT};
use crate::objects::{Kind, Object, ObjectRules, Op, KINDS, OPS};
use crate::random::Random;

/// What a random history is made of.
#[derive(Clone, Copy)]
pub struct Size {
    pub events: usize,
    pub objects: usize,
    pub processes: usize,
    pub values: u64,
    pub width: usize,
}

/// A random size: mostly small, now and then as large as it gets.
pub fn random_size(random: &mut Random) -> Size {
    match random.under(12) {
        0 => Size { events: 64, objects: 16, processes: 8, values: 65_536, width: 8 },
        1 => Size { events: random.under(65), objects: 1 + random.under(16), processes: 8, values: 65_536, width: 8 },
        2 | 3 => Size { events: random.under(20), objects: 1 + random.under(4), processes: 4, values: 100, width: 4 },
        4 => Size { events: random.under(3), objects: random.under(3), processes: 8, values: 4, width: 2 },
        _ => Size {
            events: random.under(9),
            objects: 1 + random.under(3),
            processes: 1 + random.under(3),
            values: 4,
            width: 3,
        },
    }
}

/// A capacity: mostly 1 or 2, so that the channel is often full, now and then any up to the limit.
pub fn random_capacity(random: &mut Random) -> usize {
    let most = if random.once_in(6) { CAPACITY_LIMIT as usize } else { 2 };
    1 + random.under(most)
}

/// Objects and events with no answers yet. The processes are any of 0 to 7.
pub fn shape(random: &mut Random, size: Size) -> History {
    let mut history = History::default();
    for _ in 0..size.objects {
        let kind = random.pick(&KINDS).0;
        let width = match kind {
            Kind::Window => Some(1 + random.under(size.width)),
            Kind::Channel => Some(random_capacity(random)),
            _ => None,
        };
        history.objects.push(Object { kind, width });
    }
    let mut processes: Vec<usize> = (0..8).collect();
    while processes.len() > size.processes {
        processes.remove(random.under(processes.len()));
    }
    // Some histories have only a few updates, so that small sizes have enough answers to differ in.
    while !history.objects.is_empty() && history.events.len() < size.events {
        let object = random.under(history.objects.len());
        let op = random.pick(&OPS).0;
        if !history.objects[object].kind.has(op) {
            continue;
        }
        let value = op.takes_value().then(|| random.next() % size.values);
        history.events.push(Event { process: *random.pick(&processes), object, op, value, answer: Some(vec![]) });
    }
    history
}

/// A random ordering of a set that extends an order.
pub fn random_order(random: &mut Random, set: &[usize], before: &dyn Fn(usize, usize) -> bool) -> List {
    let mut left = set.to_vec();
    let mut order = Vec::new();
    while !left.is_empty() {
        let free: Vec<usize> = left.iter().copied().filter(|b| !left.iter().any(|a| before(*a, *b))).collect();
        let next = *random.pick(&free);
        left.retain(|event| *event != next);
        order.push(next);
    }
    order
}

/// The answers that a replay of the order gives, in its order.
pub fn answers_of(history: &History, order: &[usize]) -> Vec<Vec<u64>> {
    let mut states: Vec<_> = history.objects.iter().map(|object| object.start()).collect();
    order
        .iter()
        .map(|e| {
            let event = &history.events[*e];
            Document01.act(&history.objects[event.object], &mut states[event.object], event.op, event.value)
        })
        .collect()
}

/// Pasts of a random causal order.
pub fn random_pasts(random: &mut Random, history: &History) -> Vec<List> {
    pasts_with(random, history, &|a, b| history.program_order(a, b))
}

/// Pasts of a random causal order that is drawn along an order of the events: what comes there before an event is in its
/// past wherever `needed` says so, and now and then besides. Program order is always needed.
pub fn pasts_with(random: &mut Random, history: &History, needed: &dyn Fn(usize, usize) -> bool) -> Vec<List> {
    let events = history.events.len();
    let all: List = (0..events).collect();
    let order = random_order(random, &all, &|a, b| history.program_order(a, b));
    let rarity = 1 + random.under(6);
    let mut pasts = vec![vec![]; events];
    for (place, e) in order.iter().enumerate() {
        let mut held = vec![false; events];
        for f in &order[..place] {
            if needed(*f, *e) || random.once_in(rarity * 2) {
                held[*f] = true;
                for g in &pasts[*f] {
                    let g: usize = *g;
                    held[g] = true;
                }
            }
        }
        pasts[*e] = (0..events).filter(|f| held[*f]).collect();
    }
    pasts
}

/// What each process with events applies in a random run of a broadcast, all events in an order: a process does its next
/// event, which then has in its past what the process has applied, or applies another's event when it has applied that
/// event's past. Gives the pasts and the orders.
pub fn broadcast(random: &mut Random, history: &History) -> (Vec<List>, Vec<List>) {
    let events = history.events.len();
    let processes = history.processes();
    let rarity = 1 + random.under(6);
    let mut pasts: Vec<Option<List>> = vec![None; events];
    let mut applied: Vec<List> = vec![vec![]; processes.len()];
    while applied.iter().any(|order| order.len() < events) {
        let turn = random.under(processes.len());
        let order = &applied[turn];
        let own = (0..events).find(|e| history.events[*e].process == processes[turn] && pasts[*e].is_none());
        let comes = |e: &usize| match &pasts[*e] {
            Some(past) => !order.contains(e) && past.iter().all(|f| order.contains(f)),
            None => false,
        };
        let come: List = (0..events).filter(comes).collect();
        let e = match own {
            Some(e) if come.is_empty() || random.once_in(rarity) => {
                let mut past = order.clone();
                past.sort_unstable();
                pasts[e] = Some(past);
                e
            }
            _ if !come.is_empty() => *random.pick(&come),
            // The process waits for the others.
            _ => continue,
        };
        applied[turn].push(e);
    }
    (pasts.into_iter().map(|past| past.expect("every event is done")).collect(), applied)
}

/// Gives the process's events the answers of a replay of the order.
fn answer_own(history: &mut History, process: usize, order: &[usize]) {
    for (e, answer) in order.iter().zip(answers_of(history, order)) {
        if history.events[*e].process == process {
            history.events[*e].answer = Some(answer);
        }
    }
}

/// A random view of the last of a process's events, cut to the past of each earlier one: others' events may then stand
/// before an own one that they are not in the past of. Gives the events the answers of the whole view, unless a cut has
/// other ones.
fn cut_views(random: &mut Random, history: &mut History, pasts: &[List], own: &[usize], orders: &mut [List]) -> bool {
    let last = *own.last().expect("the process has events");
    let set: List = pasts[last].iter().copied().chain([last]).collect();
    let whole = random_order(random, &set, &|a, b| pasts[b].contains(&a));
    let own_answers = |order: &[usize]| -> Vec<(usize, Vec<u64>)> {
        order.iter().copied().zip(answers_of(history, order)).filter(|(e, _)| own.contains(e)).collect()
    };
    let answers = own_answers(&whole);
    let cut = |e: usize| -> List { whole.iter().copied().filter(|f| *f == e || pasts[e].contains(f)).collect() };
    let cuts: Vec<List> = own.iter().map(|e| cut(*e)).collect();
    if !cuts.iter().all(|order| answers.starts_with(&own_answers(order))) {
        return false;
    }
    for (e, order) in own.iter().zip(cuts) {
        orders[*e] = order;
    }
    for (e, answer) in answers {
        history.events[e].answer = Some(answer);
    }
    true
}

/// Gives the history answers that meet the criterion, none of them lost, and the certificate that says so.
pub fn certified(random: &mut Random, history: &mut History, criterion: Criterion) -> Certificate {
    let all: List = (0..history.events.len()).collect();
    let mut pasts = vec![];
    let mut orders = vec![];
    match criterion {
        Criterion::Sequential => {
            let order = random_order(random, &all, &|a, b| history.program_order(a, b));
            for (e, answer) in order.iter().zip(answers_of(history, &order)) {
                history.events[*e].answer = Some(answer);
            }
            orders.push(order);
        }
        Criterion::Pram => {
            for process in history.processes() {
                let order = random_order(random, &all, &|a, b| history.program_order(a, b));
                answer_own(history, process, &order);
                orders.push(order);
            }
        }
        Criterion::Weak | Criterion::Causal | Criterion::Converge => {
            let pasts = random_pasts(random, history);
            return certified_by(random, history, criterion, pasts);
        }
        Criterion::Strict => {
            (pasts, orders) = broadcast(random, history);
            for (process, order) in history.processes().into_iter().zip(&orders) {
                answer_own(history, process, order);
            }
        }
    }
    Certificate::new(history, criterion, pasts, orders)
}

/// A view of the last of these events, which are a process's own: it grows by what is new in the past of each of them.
/// Gives the events their answers, and the orders of the views so far.
fn grow_view(random: &mut Random, history: &mut History, pasts: &[List], own: &[usize]) -> Vec<List> {
    let before = |a: usize, b: usize| pasts[b].contains(&a);
    let mut order: List = vec![];
    let mut orders = vec![];
    for e in own {
        let new: List = pasts[*e].iter().copied().filter(|event| !order.contains(event)).collect();
        order.extend(random_order(random, &new, &before));
        order.push(*e);
        history.events[*e].answer = answers_of(history, &order).pop();
        orders.push(order.clone());
    }
    orders
}

/// Gives the history answers that meet a criterion with pasts, none of them lost, under the causal order of these pasts,
/// and the certificate that says so.
pub fn certified_by(random: &mut Random, history: &mut History, criterion: Criterion, pasts: Vec<List>) -> Certificate {
    let all: List = (0..history.events.len()).collect();
    let own = |history: &History, process: usize| -> List {
        all.iter().copied().filter(|e| history.events[*e].process == process).collect()
    };
    let before = |a: usize, b: usize| pasts[b].contains(&a);
    let mut orders = vec![];
    match criterion {
        Criterion::Pram | Criterion::Sequential => panic!("it has no pasts"),
        Criterion::Weak | Criterion::Converge => {
            let whole = random_order(random, &all, &before);
            for e in 0..all.len() {
                let mut set = pasts[e].clone();
                set.push(e);
                let order = if criterion == Criterion::Weak {
                    random_order(random, &set, &before)
                } else {
                    whole.iter().copied().filter(|event| set.contains(event)).collect()
                };
                // In both, e is where the order says; all of past(e) stands before it.
                let place = order.iter().position(|event| *event == e).expect("e is in its view");
                history.events[e].answer = Some(answers_of(history, &order).swap_remove(place));
                orders.push(order);
            }
            if criterion == Criterion::Converge {
                orders = vec![whole];
            }
        }
        Criterion::Causal => {
            orders = vec![vec![]; all.len()];
            for process in history.processes() {
                let own = own(history, process);
                if random.once_in(2) && cut_views(random, history, &pasts, &own, &mut orders) {
                    continue;
                }
                for (e, order) in own.iter().zip(grow_view(random, history, &pasts, &own)) {
                    orders[*e] = order;
                }
            }
        }
        Criterion::Strict => {
            for process in history.processes() {
                let own = own(history, process);
                let mut order = grow_view(random, history, &pasts, &own).pop().expect("the process has events");
                let others: List = all.iter().copied().filter(|event| !order.contains(event)).collect();
                order.extend(random_order(random, &others, &before));
                orders.push(order);
            }
        }
    }
    Certificate::new(history, criterion, pasts, orders)
}

/// An answer of a right length for an event, drawn at random.
pub fn random_answer(random: &mut Random, history: &History, e: usize, values: u64) -> Vec<u64> {
    let event = &history.events[e];
    let length = *random.pick(&history.objects[event.object].answer_lengths(event.op));
    (0..length).map(|_| random.next() % values).collect()
}

/// Answers of the right lengths, drawn at random.
pub fn random_answers(random: &mut Random, history: &mut History, values: u64) {
    for e in 0..history.events.len() {
        history.events[e].answer = Some(random_answer(random, history, e, values));
    }
}

/// Loses answers: all of them, or one in two to six.
pub fn lose_some(random: &mut Random, history: &mut History) {
    let rarity = 1 + random.under(6);
    for event in &mut history.events {
        if random.once_in(rarity) {
            event.answer = None;
        }
    }
}

/// Loses answers of every third history.
pub fn lose_now_and_then(random: &mut Random, history: &mut History) {
    if random.once_in(3) {
        lose_some(random, history);
    }
}

/// A register with this many events by all processes in turn, each a write and a read of it, with right answers in number order.
pub fn register_history(events: usize, processes: usize) -> History {
    let mut history = History { objects: vec![Object { kind: Kind::Register, width: None }], events: vec![] };
    let mut held = 0;
    for number in 0..events {
        let (op, value, answer) = if number % 2 == 0 {
            held = 100 + number as u64;
            (Op::Write, Some(held), Some(vec![]))
        } else {
            (Op::Read, None, Some(vec![held]))
        };
        history.events.push(Event { process: number % processes, object: 0, op, value, answer });
    }
    history
}
