//! Whether a small history meets a criterion, straight from document 01's five lines and T-06 of document 02: all strict
//! partial orders of the events that contain program order, and all views. A lost answer is visible in no view. Nothing
//! here is shared with the check.

use std::collections::HashMap;

use crate::certificate::Criterion;
use crate::history::{Event, History};
use crate::objects::{Kind, Object, Op};

/// A relation on n events, by bits: bit a of row b is set when a comes before b.
pub type Order = Vec<u32>;

/// All strict partial orders of n events: none before itself, transitive.
fn strict_partial_orders(n: usize) -> Vec<Order> {
    fn go(n: usize, b: usize, rows: &mut Order, found: &mut Vec<Order>) {
        if b == n {
            let before = |a: usize, b: usize| rows[b] >> a & 1 == 1;
            let transitive = (0..n).all(|e| (0..n).all(|f| !before(f, e) || rows[f] & !rows[e] == 0));
            if transitive && (0..n).all(|e| !before(e, e)) {
                found.push(rows.clone());
            }
            return;
        }
        for row in 0..1u32 << n {
            if row >> b & 1 == 0 {
                rows.push(row);
                go(n, b + 1, rows, found);
                rows.pop();
            }
        }
    }
    let mut found = vec![];
    go(n, 0, &mut vec![], &mut found);
    found
}

/// All orderings of a set.
pub fn orderings(set: &[usize]) -> Vec<Vec<usize>> {
    if set.is_empty() {
        return vec![vec![]];
    }
    let mut found = vec![];
    for (place, first) in set.iter().enumerate() {
        let mut rest = set.to_vec();
        rest.remove(place);
        for mut order in orderings(&rest) {
            order.insert(0, *first);
            found.push(order);
        }
    }
    found
}

/// What the pushes and pops on an object have left in it, the next one to go at the end: a stack takes new values
/// there, a queue and a channel at the front.
fn left_in<'h>(object: &Object, earlier: impl Iterator<Item = &'h Event>) -> Vec<u64> {
    let mut held: Vec<u64> = vec![];
    for other in earlier {
        match (other.op, object.kind) {
            // A full channel stays as it is.
            (Op::Push, Kind::Channel) if held.len() == object.width.unwrap() => {}
            (Op::Push, Kind::Stack) => held.push(other.value.unwrap()),
            (Op::Push, _) => held.insert(0, other.value.unwrap()),
            (Op::Pop, _) => drop(held.pop()),
            _ => {}
        }
    }
    held
}

/// The answer that an op gives after the ops that came before it on its object, found from the object's definition and not by
/// states: the values written, or what the pops have left.
fn answer_after(history: &History, earlier: &[usize], e: usize) -> Vec<u64> {
    let event = &history.events[e];
    let object = &history.objects[event.object];
    let same = || earlier.iter().map(|f| &history.events[*f]).filter(|other| other.object == event.object);
    match event.op {
        // The channel holds as many values as it can: the pushed one comes back.
        Op::Push if object.kind == Kind::Channel && Some(left_in(object, same()).len()) == object.width => {
            event.value.into_iter().collect()
        }
        Op::Write | Op::Push => vec![],
        Op::Read => {
            let written: Vec<u64> = same().filter_map(|other| other.value).collect();
            match object.kind {
                // The last k values written, or all of them while there are fewer, oldest first.
                Kind::Window => written[written.len().saturating_sub(object.width.unwrap())..].to_vec(),
                _ => vec![written.last().copied().unwrap_or(0)],
            }
        }
        Op::Pop | Op::Peek => left_in(object, same()).last().copied().into_iter().collect(),
    }
}

/// Does every visible answer in the view equal what the object gives? A lost one is not visible.
fn replays(history: &History, view: &[usize], visible: impl Fn(usize) -> bool) -> bool {
    (0..view.len()).all(|place| {
        let e = view[place];
        match &history.events[e].answer {
            Some(recorded) if visible(e) => answer_after(history, &view[..place], e) == *recorded,
            _ => true,
        }
    })
}

/// Does the view extend the order: is nothing placed before what comes before it?
fn extends(view: &[usize], order: &Order) -> bool {
    (0..view.len()).all(|j| (0..j).all(|i| order[view[i]] >> view[j] & 1 == 0))
}

/// Keeps the orders of each size, since there are many.
#[derive(Default)]
pub struct Brute {
    orders: HashMap<usize, Vec<Order>>,
}

impl Brute {
    fn program_order(history: &History) -> Order {
        let n = history.events.len();
        (0..n).map(|b| (0..n).filter(|a| history.program_order(*a, b)).map(|a| 1 << a).sum()).collect()
    }

    /// The causal orders of a history.
    pub fn causal_orders(&mut self, history: &History) -> Vec<Order> {
        let n = history.events.len();
        let program = Brute::program_order(history);
        let orders = self.orders.entry(n).or_insert_with(|| strict_partial_orders(n));
        orders.iter().filter(|order| (0..n).all(|e| program[e] & !order[e] == 0)).cloned().collect()
    }

    /// The views of a set of events that extend an order.
    pub fn views(&self, set: &[usize], order: &Order) -> Vec<Vec<usize>> {
        orderings(set).into_iter().filter(|view| extends(view, order)).collect()
    }

    /// Does the history meet the criterion?
    pub fn meets(&mut self, history: &History, criterion: Criterion) -> bool {
        let n = history.events.len();
        let all: Vec<usize> = (0..n).collect();
        let process = |e: usize| history.events[e].process;
        let program = Brute::program_order(history);
        let past_and_e = |order: &Order, e: usize| -> Vec<usize> { (0..n).filter(|f| *f == e || order[e] >> f & 1 == 1).collect() };
        match criterion {
            Criterion::Sequential => self.views(&all, &program).iter().any(|view| replays(history, view, |_| true)),
            Criterion::Pram => {
                let views = self.views(&all, &program);
                history.processes().iter().all(|p| views.iter().any(|view| replays(history, view, |e| process(e) == *p)))
            }
            Criterion::Weak | Criterion::Causal => self.causal_orders(history).iter().any(|order| {
                (0..n).all(|e| {
                    self.views(&past_and_e(order, e), order).iter().any(|view| {
                        replays(history, view, |f| if criterion == Criterion::Weak { f == e } else { process(f) == process(e) })
                    })
                })
            }),
            Criterion::Strict => {
                // For each process the views in which its answers are right; a causal order contains program order.
                let mut of_process = vec![];
                for p in history.processes() {
                    let mut views = self.views(&all, &program);
                    views.retain(|view| replays(history, view, |e| process(e) == p));
                    of_process.push((p, views));
                }
                self.causal_orders(history).iter().any(|order| {
                    // Before each event of the process only its past stands.
                    let only_past = |view: &[usize], p: usize| {
                        (0..n).all(|j| process(view[j]) != p || view[..j].iter().all(|f| order[view[j]] >> f & 1 == 1))
                    };
                    of_process.iter().all(|(p, views)| views.iter().any(|view| extends(view, order) && only_past(view, *p)))
                })
            }
            Criterion::Converge => self.causal_orders(history).iter().any(|order| {
                self.views(&all, order).iter().any(|view| {
                    (0..n).all(|e| {
                        let set = past_and_e(order, e);
                        let cut: Vec<usize> = view.iter().copied().filter(|f| set.contains(f)).collect();
                        replays(history, &cut, |f| f == e)
                    })
                })
            }),
        }
    }
}
