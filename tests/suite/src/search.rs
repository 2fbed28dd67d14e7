//! Looks for a certificate of a history that is too large for the brute force: Figure 3 of document 004 has up to twelve events.
//! Events are placed one by one in an order that extends the causal order, and each gets its past out of those already placed.
//!
//! A write, or a push onto a queue or a stack, always gives the empty answer, so it needs no more in its past than its
//! process's earlier events and their pasts: a smaller past puts fewer demands on every other event. The same holds of
//! an event whose answer is lost. All other events try every past there is, the pushes onto channels too. Under strict
//! every event does: the past of an update says where it stands in its process's view.

use std::collections::HashSet;

use crate::certificate::{Certificate, Criterion, List};
use crate::check::Document01;
use crate::history::History;
use crate::objects::{ObjectRules, State};

/// A set of events, by bits.
type Set = u64;

fn members(set: Set) -> List {
    (0..64).filter(|event| set >> event & 1 == 1).collect()
}

/// A view of the set that extends the order and replays with the visible answers.
fn view_of(history: &History, set: Set, before: &dyn Fn(usize) -> Set, visible: &dyn Fn(usize) -> bool) -> Option<List> {
    struct Search<'s> {
        history: &'s History,
        before: &'s dyn Fn(usize) -> Set,
        visible: &'s dyn Fn(usize) -> bool,
        failed: HashSet<(Set, Vec<State>)>,
    }
    fn go(search: &mut Search, left: Set, states: &[State], view: &mut List) -> bool {
        if left == 0 {
            return true;
        }
        if search.failed.contains(&(left, states.to_vec())) {
            return false;
        }
        for e in members(left) {
            if (search.before)(e) & left != 0 {
                continue;
            }
            let event = &search.history.events[e];
            let mut next = states.to_vec();
            let object = &search.history.objects[event.object];
            let answer = Document01.act(object, &mut next[event.object], event.op, event.value);
            if (search.visible)(e) && event.answer.is_some() && event.answer != Some(answer) {
                continue;
            }
            view.push(e);
            if go(search, left & !(1 << e), &next, view) {
                return true;
            }
            view.pop();
        }
        search.failed.insert((left, states.to_vec()));
        false
    }
    let states: Vec<State> = history.objects.iter().map(|object| object.start()).collect();
    let mut view = vec![];
    go(&mut Search { history, before, visible, failed: HashSet::new() }, set, &states, &mut view).then_some(view)
}

struct Causal<'h> {
    history: &'h History,
    criterion: Criterion,
    seen: HashSet<Vec<Option<Set>>>,
}

impl Causal<'_> {
    /// All pasts that an event may have: closed, with its process's earlier events.
    fn pasts_of(&self, e: usize, placed: &[usize], pasts: &[Option<Set>]) -> Vec<Set> {
        let closure = |f: usize| pasts[f].expect("it is placed") | 1 << f;
        let own = placed.iter().filter(|f| self.history.program_order(**f, e)).fold(0, |set, f| set | closure(*f));
        let event = &self.history.events[e];
        let always_empty = self.history.objects[event.object].answer_lengths(event.op) == [0];
        if self.criterion != Criterion::Strict && (always_empty || event.answer.is_none()) {
            return vec![own];
        }
        let mut found = vec![own];
        for f in placed {
            for index in 0..found.len() {
                let wider = found[index] | closure(*f);
                if !found.contains(&wider) {
                    found.push(wider);
                }
            }
        }
        found
    }

    /// Does the event's answer suit this past?
    fn suits(&self, e: usize, past: Set, placed: &[usize], pasts: &[Option<Set>]) -> bool {
        let set = past | 1 << e;
        let before = |f: usize| if f == e { past } else { pasts[f].expect("it is placed") };
        if self.criterion == Criterion::Converge {
            let mut cut: List = placed.iter().copied().filter(|f| past >> f & 1 == 1).collect();
            cut.push(e);
            let Some(recorded) = &self.history.events[e].answer else { return true };
            return crate::make::answers_of(self.history, &cut).last() == Some(recorded);
        }
        self.view(e, set, &before).is_some()
    }

    /// A view of the set that has the answers visible for e. Under strict, each event of e's process comes before all that
    /// is not in its past.
    fn view(&self, e: usize, set: Set, past: &dyn Fn(usize) -> Set) -> Option<List> {
        let process = |f: usize| self.history.events[f].process;
        let own: List = members(set).into_iter().filter(|f| process(*f) == process(e)).collect();
        let before = |f: usize| match self.criterion {
            Criterion::Strict => {
                let unknown = own.iter().filter(|g| **g != f && past(**g) >> f & 1 == 0);
                unknown.fold(past(f), |set, g| set | 1 << g)
            }
            _ => past(f),
        };
        view_of(self.history, set, &before, &|f| self.visible(e, f))
    }

    fn visible(&self, e: usize, f: usize) -> bool {
        match self.criterion {
            Criterion::Causal | Criterion::Strict => self.history.events[e].process == self.history.events[f].process,
            _ => e == f,
        }
    }

    fn go(&mut self, placed: &mut List, pasts: &mut Vec<Option<Set>>) -> bool {
        let events = self.history.events.len();
        if placed.len() == events {
            return true;
        }
        // Where there is no common view, it doesn't matter in which order the events got their pasts.
        if self.criterion != Criterion::Converge && !self.seen.insert(pasts.clone()) {
            return false;
        }
        for process in self.history.processes() {
            let next = (0..events).find(|e| self.history.events[*e].process == process && pasts[*e].is_none());
            let Some(e) = next else { continue };
            for past in self.pasts_of(e, placed, pasts) {
                if !self.suits(e, past, placed, pasts) {
                    continue;
                }
                pasts[e] = Some(past);
                placed.push(e);
                if self.go(placed, pasts) {
                    return true;
                }
                placed.pop();
                pasts[e] = None;
            }
        }
        false
    }
}

/// A certificate of the criterion, if there is one.
pub fn find(history: &History, criterion: Criterion) -> Option<Certificate> {
    let events = history.events.len();
    let all: Set = if events == 64 { Set::MAX } else { (1 << events) - 1 };
    let program = |e: usize| (0..e).filter(|f| history.program_order(*f, e)).fold(0, |set: Set, f| set | 1 << f);
    match criterion {
        Criterion::Sequential => {
            let view = view_of(history, all, &program, &|_| true)?;
            Some(Certificate::new(history, criterion, vec![], vec![view]))
        }
        Criterion::Pram => {
            let of = |process: usize| view_of(history, all, &program, &|e| history.events[e].process == process);
            let views = history.processes().into_iter().map(of).collect::<Option<Vec<List>>>()?;
            Some(Certificate::new(history, criterion, vec![], views))
        }
        _ => {
            let mut search = Causal { history, criterion, seen: HashSet::new() };
            let mut placed = vec![];
            let mut pasts = vec![None; events];
            if !search.go(&mut placed, &mut pasts) {
                return None;
            }
            let sets: Vec<Set> = pasts.into_iter().map(|past| past.expect("every event is placed")).collect();
            let view = |e: usize, set: Set| search.view(e, set, &|f| sets[f]).expect("it was found before");
            let first = |process: usize| history.events.iter().position(|event| event.process == process);
            let views = match criterion {
                Criterion::Converge => vec![placed],
                Criterion::Strict => {
                    let of = |process: usize| view(first(process).expect("the process has events"), all);
                    history.processes().into_iter().map(of).collect()
                }
                _ => (0..events).map(|e| view(e, sets[e] | 1 << e)).collect(),
            };
            Some(Certificate::new(history, criterion, sets.iter().map(|set| members(*set)).collect(), views))
        }
    }
}
