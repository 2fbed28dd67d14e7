//! Channels that get full: the last slot of every capacity, pushes that are refused, and both under every criterion.

use crate::answers::{hold, hold_wrong, in_order, wrong_at, wrong_by, ACCEPTED};
use crate::certificate::{List, CRITERIA};
use crate::compare::{Call, Comparer};
use crate::history::{Event, History};
use crate::make::{certified, lose_now_and_then, random_answer};
use crate::objects::{Kind, Op};
use crate::random::Random;
use crate::samples::{channel, event, object, with_lost};
use crate::weaken::weakened;

/// The same history with another capacity.
fn with_capacity(history: &History, capacity: usize) -> History {
    History { objects: vec![channel(capacity)], events: history.events.clone() }
}

/// The value that event e pushes.
fn value_of(e: usize) -> u64 {
    100 + e as u64
}

fn push(e: usize, answer: &[u64]) -> Event {
    event(e % 5, 0, Op::Push, Some(value_of(e)), answer)
}

/// So many pushes: those that fill the channel are taken, all others are refused.
fn filled(capacity: usize, events: usize) -> History {
    let answer = |e: usize| if e < capacity { vec![] } else { vec![value_of(e)] };
    History { objects: vec![channel(capacity)], events: (0..events).map(|e| push(e, &answer(e))).collect() }
}

/// The channel filled, a push refused, a pop that frees a slot, a push that takes it, a push refused, and a peek; as
/// far as a history has room for them.
fn freed(capacity: usize) -> History {
    let mut history = filled(capacity, capacity + 1);
    let taken = capacity + 2;
    let refused = capacity + 3;
    // With one slot only the new value is there.
    let oldest = if capacity == 1 { value_of(taken) } else { value_of(1) };
    history.events.push(event(1, 0, Op::Pop, None, &[value_of(0)]));
    history.events.push(push(taken, &[]));
    history.events.push(push(refused, &[value_of(refused)]));
    history.events.push(event(2, 0, Op::Peek, None, &[oldest]));
    history.events.truncate(64);
    history
}

/// One push more than the channel has slots, all their answers lost, and as many pops, the last of which finds nothing.
fn drained(capacity: usize) -> History {
    let pushes: List = (0..=capacity).collect();
    let mut history = with_lost(filled(capacity, capacity + 1), &pushes);
    for e in 0..capacity {
        history.events.push(event(e % 3, 0, Op::Pop, None, &[value_of(e)]));
    }
    history.events.push(event(0, 0, Op::Pop, None, &[]));
    history
}

/// The filled channel is as recorded. With a slot fewer the push into the last slot is wrong, with a slot more the push
/// behind it.
fn hold_filled(
    comparer: &mut Comparer,
    name: &str,
    capacity: usize,
    history: &History,
    certificate: &[u8],
    wrong_at: &dyn Fn(usize) -> (u32, u32, u32),
) {
    hold(comparer, name, history, certificate, ACCEPTED);
    if capacity > 1 {
        let fewer = with_capacity(history, capacity - 1);
        hold(comparer, &format!("{name}, a slot fewer"), &fewer, certificate, wrong_at(capacity - 1));
    }
    if capacity < 64 {
        let more = with_capacity(history, capacity + 1);
        hold(comparer, &format!("{name}, a slot more"), &more, certificate, wrong_at(capacity));
    }
}

/// Every capacity, in number order: what is stated follows from the capacity alone.
pub fn last_slot(comparer: &mut Comparer, random: &mut Random, _: usize) {
    for capacity in 1..=64 {
        // 64 pushes: the last slot is taken, and the push behind it is refused, if there is one.
        let history = filled(capacity, 64);
        let certificate = in_order(&history).text();
        hold_filled(comparer, "filled", capacity, &history, &certificate, &wrong_at);
        // The answer of one push changed: at the last slot, behind it, and anywhere.
        for e in [capacity - 1, capacity, random.under(64)] {
            if e >= 64 {
                continue;
            }
            let mut changed = history.clone();
            let taken = e < capacity;
            changed.events[e].answer = Some(if taken { vec![value_of(e)] } else { vec![] });
            hold(comparer, "taken for refused, or the reverse", &changed, &certificate, wrong_at(e));
            changed.events[e].answer = Some(vec![value_of(e) - 1]);
            hold(comparer, "another value comes back", &changed, &certificate, wrong_at(e));
            changed.events[e].answer = None;
            hold(comparer, "one lost", &changed, &certificate, ACCEPTED);
        }
        let history = freed(capacity);
        let certificate = in_order(&history).text();
        hold(comparer, "a slot freed", &history, &certificate, ACCEPTED);
        for e in capacity..history.events.len() {
            let mut changed = history.clone();
            let empty = changed.events[e].answer == Some(vec![]);
            changed.events[e].answer = Some(if empty { vec![value_of(e)] } else { vec![] });
            hold(comparer, "a slot freed, an answer changed", &changed, &certificate, wrong_at(e));
        }
        if capacity <= 31 {
            // No push tells, so the pops do: nothing is popped that was refused, and everything that was taken.
            let history = drained(capacity);
            let certificate = in_order(&history).text();
            let last = history.events.len() - 1;
            hold(comparer, "drained", &history, &certificate, ACCEPTED);
            hold(comparer, "drained, a slot more", &with_capacity(&history, capacity + 1), &certificate, wrong_at(last));
            if capacity > 1 {
                let fewer = with_capacity(&history, capacity - 1);
                hold(comparer, "drained, a slot fewer", &fewer, &certificate, wrong_at(last - 1));
            }
        }
        if comparer.done() {
            return;
        }
    }
    // Under every criterion, each event behind all those with smaller numbers.
    for capacity in [1, 2, 8, 63, 64] {
        let history = filled(capacity, 64);
        for criterion in CRITERIA {
            let whole = weakened(&history, &in_order(&history), criterion).expect("sequential is weakened to all");
            let certificate = whole.text();
            let wrong_at = |e: usize| wrong_by(criterion, &history, e);
            hold_filled(comparer, "filled, weakened", capacity, &history, &certificate, &wrong_at);
        }
    }
    // A queue has no capacity of its own: 64 pushes are all taken.
    let mut history = filled(64, 64);
    history.objects = vec![object(Kind::Queue)];
    hold(comparer, "a queue", &history, &in_order(&history).text(), ACCEPTED);
}

/// A history of a channel that gets nearly full or full, and often of a queue beside it: with few slots a third are
/// pops and peeks, with many slots nearly all events are pushes.
fn crowded(random: &mut Random, capacity: usize) -> History {
    let mut history = History { objects: vec![channel(capacity)], events: vec![] };
    let events = if capacity > 8 { 64 } else { 3 * capacity + random.under(12) };
    let processes = 1 + random.under(4);
    let rarity = if capacity > 8 { 64 } else { 3 };
    if capacity <= 8 && random.once_in(2) {
        history.objects.push(object(Kind::Queue));
    }
    for e in 0..events {
        let process = random.under(processes);
        let op = if !random.once_in(rarity) {
            Op::Push
        } else if random.once_in(2) {
            Op::Pop
        } else {
            Op::Peek
        };
        let value = (op == Op::Push).then_some(value_of(e));
        let place = if random.once_in(5) { history.objects.len() - 1 } else { 0 };
        history.events.push(Event { process, object: place, op, value, answer: None });
    }
    history
}

/// Another answer for an event, if it can have one. Of a push onto a channel it is often the pushed value.
fn other_answer(random: &mut Random, history: &History, e: usize) -> Option<Vec<u64>> {
    let event = &history.events[e];
    if history.objects[event.object].answer_lengths(event.op) == [0] {
        return None;
    }
    loop {
        let drawn = random_answer(random, history, e, 200);
        let answer = match event.value {
            Some(value) if !drawn.is_empty() && random.once_in(2) => vec![value],
            _ => drawn,
        };
        if event.answer.as_ref() != Some(&answer) {
            return Some(answer);
        }
    }
}

/// Channels of small and of large capacities under every criterion: certificates that are accepted and what they are
/// weakened to, then the answers of pushes and the capacity changed.
pub fn crowds(comparer: &mut Comparer, random: &mut Random, rounds: usize) {
    for round in 0..rounds.div_ceil(80) {
        // The long histories of many slots now and then.
        let capacities = if round % 10 == 0 { vec![1, 2, 8, 63, 64] } else { vec![1, 2, 8] };
        for (capacity, criterion) in capacities.into_iter().flat_map(|slots| CRITERIA.map(|named| (slots, named))) {
            let mut history = crowded(random, capacity);
            let certificate = certified(random, &mut history, criterion).text();
            hold(comparer, "made to be accepted", &history, &certificate, ACCEPTED);
            for wanted in 0..=6 {
                comparer.compare(Call::Weaken { wanted, buffer: 25_000 }, &history.text(), &certificate);
            }
            for _ in 0..4 {
                let e = random.under(history.events.len());
                let Some(other) = other_answer(random, &history, e) else { continue };
                let mut changed = history.clone();
                changed.events[e].answer = Some(other);
                // Every answer is visible in some view, and was right there.
                hold_wrong(comparer, &format!("{criterion:?}, the answer of {e} changed"), &changed, &certificate);
                lose_now_and_then(random, &mut changed);
                comparer.check(&changed.text(), &certificate);
            }
            for other in [capacity - 1, capacity + 1] {
                let mut changed = history.clone();
                changed.objects[0] = channel(other);
                comparer.check(&changed.text(), &certificate);
            }
            if comparer.done() {
                return;
            }
        }
    }
}
