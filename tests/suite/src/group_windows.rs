//! Windows from their first read on: what a read answers after any number of writes, for every width and under every
//! criterion.

use crate::answers::{hold, hold_wrong, in_order, wrong_at, wrong_by, ACCEPTED};
use crate::certificate::{List, CRITERIA};
use crate::compare::{Call, Comparer};
use crate::history::{Event, History};
use crate::make::{certified, lose_now_and_then};
use crate::objects::{Kind, Op};
use crate::random::Random;
use crate::samples::{event, object, window, with_lost};
use crate::weaken::weakened;

/// The value that event e writes.
fn value_of(e: usize) -> u64 {
    100 + e as u64
}

fn write(e: usize) -> Event {
    event(e % 5, 0, Op::Write, Some(value_of(e)), &[])
}

fn read(e: usize, answer: &[u64]) -> Event {
    event(e % 3, 0, Op::Read, None, answer)
}

/// The last so many of a list, or the whole list.
fn last(values: &[u64], count: usize) -> Vec<u64> {
    values.iter().rev().take(count).rev().copied().collect()
}

/// So many writes to a window, and then a read of it.
fn written(width: usize, writes: usize) -> History {
    let values: Vec<u64> = (0..writes).map(value_of).collect();
    let mut events: Vec<Event> = (0..writes).map(write).collect();
    events.push(read(writes, &last(&values, width)));
    History { objects: vec![window(width)], events }
}

/// A read before every write: each answers what was written so far.
fn growing(width: usize) -> History {
    let mut values = vec![];
    let mut events = vec![];
    for e in 0..64 {
        if e % 2 == 0 {
            events.push(read(e, &last(&values, width)));
        } else {
            values.push(value_of(e));
            events.push(write(e));
        }
    }
    History { objects: vec![window(width)], events }
}

/// The same history with another answer of event e.
fn answering(history: &History, e: usize, answer: Vec<u64>) -> History {
    let mut changed = history.clone();
    changed.events[e].answer = Some(answer);
    changed
}

/// The same history with another width.
fn with_width(history: &History, width: usize) -> History {
    History { objects: vec![window(width)], events: history.events.clone() }
}

/// Answers of at most as many values as the window has places, and not the right one: with the zeros that a window once
/// started with, with one zero, without the oldest value, without the newest, newest first, the first values, none.
fn wrong_answers(width: usize, values: &[u64]) -> Vec<(&'static str, Vec<u64>)> {
    let right = last(values, width);
    let mut turned = right.clone();
    turned.reverse();
    let zeros = [vec![0; width - right.len()], right.clone()].concat();
    let first: Vec<u64> = values.iter().take(width).copied().collect();
    let all = [
        ("zeros in front", zeros),
        ("a zero in front", last(&[&[0], &right[..]].concat(), width)),
        ("a zero behind", [&right[..], &[0]].concat().into_iter().take(width).collect()),
        ("without the oldest", right.iter().skip(1).copied().collect()),
        ("without the newest", right.iter().take(right.len().saturating_sub(1)).copied().collect()),
        ("newest first", turned),
        ("the first values", first),
        ("no value", vec![]),
        ("the newest alone", last(values, 1)),
    ];
    all.into_iter().filter(|(_, answer)| *answer != right).collect()
}

/// Every width with any number of writes: what is stated follows from the width and the writes alone.
pub fn last_values(comparer: &mut Comparer, random: &mut Random, _: usize) {
    for width in 1..=8 {
        for writes in (0..=2 * width + 1).chain(62..=63) {
            let history = written(width, writes);
            let certificate = in_order(&history).text();
            let values: Vec<u64> = (0..writes).map(value_of).collect();
            hold(comparer, "the last values", &history, &certificate, ACCEPTED);
            for (name, answer) in wrong_answers(width, &values) {
                hold(comparer, name, &answering(&history, writes, answer), &certificate, wrong_at(writes));
            }
            // The answers of all writes lost: they take effect all the same.
            let all_writes: List = (0..writes).collect();
            let lost = with_lost(history.clone(), &all_writes);
            hold(comparer, "lost writes", &lost, &certificate, ACCEPTED);
            // With another width the same answer is right while the window holds fewer values than both widths.
            if width < 8 {
                let stated = if writes <= width { ACCEPTED } else { wrong_at(writes) };
                hold(comparer, "a place more", &with_width(&history, width + 1), &certificate, stated);
            }
            if width > 1 && writes < width {
                hold(comparer, "a place less", &with_width(&history, width - 1), &certificate, ACCEPTED);
            }
            // One value more than the window has places is 5, and one that is not there is 16.
            for length in 0..=9 {
                let long = answering(&history, writes, vec![7; length]);
                let answer = comparer.check(&long.text(), &certificate);
                let stated = if length > width {
                    5
                } else if length == 0 && writes == 0 {
                    0
                } else {
                    16
                };
                comparer.note(answer == stated, || format!("width {width}, {length} values: given {answer}, stated {stated}"));
            }
            if comparer.done() {
                return;
            }
        }
        let history = growing(width);
        let certificate = in_order(&history).text();
        hold(comparer, "reads between writes", &history, &certificate, ACCEPTED);
        for e in (0..64).step_by(2) {
            let values: Vec<u64> = (1..e).step_by(2).map(value_of).collect();
            for (name, answer) in wrong_answers(width, &values) {
                hold(comparer, name, &answering(&history, e, answer), &certificate, wrong_at(e));
            }
            hold(comparer, "one lost", &with_lost(history.clone(), &[e, e + 1]), &certificate, ACCEPTED);
        }
        // Under every criterion, each event behind all those with smaller numbers.
        for criterion in CRITERIA {
            let whole = weakened(&history, &in_order(&history), criterion).expect("sequential is weakened to all");
            let certificate = whole.text();
            hold(comparer, "weakened", &history, &certificate, ACCEPTED);
            for e in [0, 2, 2 * width, 2 * width + 2, 2 * random.under(32)] {
                let values: Vec<u64> = (1..e).step_by(2).map(value_of).collect();
                for (name, answer) in wrong_answers(width, &values) {
                    let stated = wrong_by(criterion, &history, e);
                    hold(comparer, name, &answering(&history, e, answer), &certificate, stated);
                }
            }
        }
        if comparer.done() {
            return;
        }
    }
    // A register starts at 0, and keeps one value.
    let of = |events: Vec<Event>| History { objects: vec![object(Kind::Register)], events };
    for (writes, answer, stated) in [(0, 0, ACCEPTED), (0, 100, wrong_at(0)), (3, 102, ACCEPTED), (3, 100, wrong_at(3))] {
        let mut history = of((0..writes).map(write).collect());
        history.events.push(read(writes, &[answer]));
        hold(comparer, "a register", &history, &in_order(&history).text(), stated);
    }
}

/// A history of a window, and often of another one or a register beside it: two of three events are writes, so that windows
/// of every width fill up and are read before.
fn scanned(random: &mut Random, width: usize) -> History {
    let mut history = History { objects: vec![window(width)], events: vec![] };
    if random.once_in(2) {
        let beside = if random.once_in(2) { object(Kind::Register) } else { window(1 + random.under(8)) };
        history.objects.push(beside);
    }
    let processes = 1 + random.under(4);
    for e in 0..2 + random.under(3 * width + 8) {
        let op = if random.once_in(3) { Op::Read } else { Op::Write };
        let value = (op == Op::Write).then_some(value_of(e));
        let place = if random.once_in(3) { history.objects.len() - 1 } else { 0 };
        history.events.push(Event { process: random.under(processes), object: place, op, value, answer: None });
    }
    history
}

/// Windows of every width under every criterion: certificates that are accepted and what they are weakened to, then the
/// answers of reads and the width changed.
pub fn scans(comparer: &mut Comparer, random: &mut Random, rounds: usize) {
    for _ in 0..rounds.div_ceil(160) {
        for (width, criterion) in (1..=8).flat_map(|width| CRITERIA.map(|named| (width, named))) {
            let mut history = scanned(random, width);
            let certificate = certified(random, &mut history, criterion).text();
            hold(comparer, "made to be accepted", &history, &certificate, ACCEPTED);
            for wanted in 0..=6 {
                comparer.compare(Call::Weaken { wanted, buffer: 25_000 }, &history.text(), &certificate);
            }
            let reads: List = (0..history.events.len()).filter(|e| history.events[*e].op == Op::Read).collect();
            for e in reads.into_iter().take(4) {
                let of = history.objects[history.events[e].object];
                let right = history.events[e].answer.clone().expect("it was made");
                let wrong = wrong_answers(of.reads(), &right);
                for (name, answer) in wrong.into_iter().filter(|(_, answer)| of.answer_lengths(Op::Read).contains(&answer.len())) {
                    // Every answer is visible in some view, and was right there.
                    let name = format!("{criterion:?}, {name} at {e}");
                    hold_wrong(comparer, &name, &answering(&history, e, answer), &certificate);
                }
                let mut changed = history.clone();
                lose_now_and_then(random, &mut changed);
                comparer.check(&changed.text(), &certificate);
            }
            for other in [width - 1, width + 1] {
                let mut changed = history.clone();
                changed.objects[0] = window(other);
                comparer.check(&changed.text(), &certificate);
            }
            if comparer.done() {
                return;
            }
        }
    }
}
