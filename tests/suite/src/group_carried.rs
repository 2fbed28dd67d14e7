//! The line that a fault carries (document 02, T-05): 16 and 11 to 13 carry the line of their event, 14, 15 and 20 none.
//! Each fault is put into accepted pairs of histories with any number of objects, at the lowest place where it can
//! stand, at the highest and at one between; and pairs are damaged at random. What is carried is held to the bytes of
//! the history text.

use std::collections::BTreeMap;

use crate::answers::{given, wrong_by, ACCEPTED};
use crate::certificate::{Certificate, Criterion, List, View, CRITERIA};
use crate::check::{CheckRules, Document01, NONE};
use crate::compare::{Call, Comparer};
use crate::damage::{damage_certificate, damage_history};
use crate::history::History;
use crate::make::{certified, lose_now_and_then, shape, Size};
use crate::random::Random;

/// A history and a certificate of it.
type Pair = (History, Certificate);

/// The number, the view and the event of an answer.
type Stated = (u32, u32, u32);

/// A random history with so many objects, and a certificate that is accepted. Without objects there are no events.
fn accepted(random: &mut Random, objects: usize) -> Pair {
    let events = match random.under(4) {
        0 => 64,
        1 => 1 + random.under(3),
        _ => 1 + random.under(64),
    };
    let size = Size { events, objects, processes: 1 + random.under(8), values: 65_536, width: 8 };
    let mut history = shape(random, size);
    // Strict alone has 20.
    let criterion = if random.once_in(4) { Criterion::Strict } else { *random.pick(&CRITERIA) };
    let certificate = certified(random, &mut history, criterion);
    lose_now_and_then(random, &mut history);
    (history, certificate)
}

/// The same certificate without the entry of past(e) that stands at this place of it.
fn without_entry(certificate: &Certificate, e: usize, place: usize) -> Certificate {
    let mut changed = certificate.clone();
    changed.pasts[e].remove(place);
    changed
}

/// 11: past(e) without an earlier event of its process.
fn without_own(history: &History, certificate: &Certificate, e: usize) -> Option<Certificate> {
    let own = certificate.pasts[e].iter().position(|f| history.program_order(*f, e))?;
    Some(without_entry(certificate, e, own))
}

/// 12: e in past(e).
fn with_itself(certificate: &Certificate, e: usize) -> Certificate {
    let mut changed = certificate.clone();
    changed.pasts[e].push(e);
    changed.pasts[e].sort_unstable();
    changed
}

/// 13: past(e) without an event of another process that is in the past of one of its events.
fn with_gap(history: &History, certificate: &Certificate, e: usize) -> Option<Certificate> {
    let past = &certificate.pasts[e];
    let needed = |g: &usize| past.iter().any(|f| certificate.pasts[*f].contains(g));
    let gap = past.iter().position(|g| !history.program_order(*g, e) && needed(g))?;
    Some(without_entry(certificate, e, gap))
}

/// The same certificate with another order of the view at this place.
fn with_order(certificate: &Certificate, place: usize, order: List) -> Certificate {
    let mut changed = certificate.clone();
    changed.views[place].order = order;
    changed
}

/// 14: a view without its first event.
pub fn without_first(certificate: &Certificate, place: usize) -> Option<Certificate> {
    let (_, rest) = certificate.views[place].order.split_first()?;
    Some(with_order(certificate, place, rest.to_vec()))
}

/// 15: two events of a view in each other's place, one of which comes before the other.
pub fn turned(history: &History, certificate: &Certificate, place: usize) -> Option<Certificate> {
    let mut order = certificate.views[place].order.clone();
    let mut pairs = (0..order.len()).flat_map(|j| (0..j).map(move |i| (i, j)));
    let (i, j) = pairs.find(|(i, j)| Document01.before(history, certificate, order[*i], order[*j]))?;
    order.swap(i, j);
    Some(with_order(certificate, place, order))
}

/// 16: another answer of e that is not lost, of a length that its op can give.
pub fn answering_otherwise(history: &History, e: usize) -> Option<History> {
    let mut changed = history.clone();
    let event = &mut changed.events[e];
    let one = history.objects[event.object].answer_lengths(event.op).contains(&1);
    let answer = event.answer.as_mut()?;
    match answer.last_mut() {
        Some(value) => *value ^= 1,
        None if one => answer.push(7),
        None => return None,
    }
    Some(changed)
}

/// 20: an own event of the view and the next one in each other's place, where the next one does not come behind it.
pub fn outside_past(history: &History, certificate: &Certificate, place: usize) -> Option<Certificate> {
    let View { number, order } = &certificate.views[place];
    let own = |event: usize| history.events[event].process == *number;
    let next = order.windows(2).position(|two| own(two[0]) && !certificate.pasts[two[1]].contains(&two[0]))?;
    let mut changed = order.clone();
    changed.swap(next, next + 1);
    Some(with_order(certificate, place, changed))
}

/// The faults of the check.
const FAULTS: [u32; 7] = [11, 12, 13, 14, 15, 16, 20];

/// How many places there are for a fault: events that have a past, views, views of strict, events.
fn places_for(fault: u32, (history, certificate): &Pair) -> usize {
    match fault {
        11..=13 => certificate.pasts.len(),
        14 | 15 => certificate.views.len(),
        20 if certificate.criterion == Criterion::Strict => certificate.views.len(),
        20 => 0,
        _ => history.events.len(),
    }
}

/// An accepted pair with the fault put at a place, and what is stated of it; nothing where the fault can't stand there.
fn put(fault: u32, (history, certificate): &Pair, place: usize) -> Option<(Pair, Stated)> {
    let at_event = (fault, NONE, place as u32);
    let with = |changed: Certificate, stated: Stated| ((history.clone(), changed), stated);
    let at_view = || (fault, certificate.views[place].number as u32, NONE);
    match fault {
        11 => without_own(history, certificate, place).map(|changed| with(changed, at_event)),
        12 => Some(with(with_itself(certificate, place), at_event)),
        13 => with_gap(history, certificate, place).map(|changed| with(changed, at_event)),
        14 => without_first(certificate, place).map(|changed| with(changed, at_view())),
        15 => turned(history, certificate, place).map(|changed| with(changed, at_view())),
        20 => outside_past(history, certificate, place).map(|changed| with(changed, at_view())),
        _ => {
            let stated = wrong_by(certificate.criterion, history, place);
            answering_otherwise(history, place).map(|changed| ((changed, certificate.clone()), stated))
        }
    }
}

/// The numbers that carry the line of their event.
fn carries_event(answer: u32) -> bool {
    matches!(answer, 11..=13 | 16)
}

/// What is wrong with the line that an answer carries, if anything is. Reading refusals aren't judged here.
fn wrong_line(history: &History, text: &[u8], answer: u32, places: [u32; 7]) -> Option<&'static str> {
    let [_, which, line, _, event, start, length] = places;
    if !carries_event(answer) {
        return ((which, line, start, length) != (0, NONE, 0, 0)).then_some("it carries a line");
    }
    let (line, event, start, end) = (line as usize, event as usize, start as usize, start as usize + length as usize);
    if event >= history.events.len() || end >= text.len() {
        return Some("there is no such event, or the part ends behind the last line feed");
    }
    let part = &text[start..end];
    let feeds_before = text[..start].iter().filter(|byte| **byte == 10).count();
    let asked = [
        (which == 1, "it isn't part of the history"),
        (start > 0 && text[start - 1] == 10, "no line feed stands before it"),
        (text[end] == 10, "no line feed stands behind it"),
        (!part.contains(&10), "it has a line feed"),
        (part.starts_with(format!("{event} ").as_bytes()), "it doesn't begin with the event's number"),
        (part == history.event_text(event).as_bytes(), "it isn't the event's text"),
        (line == feeds_before + 1, "its number isn't one more than the line feeds before it"),
        (line == event + history.objects.len() + 3, "its number isn't that of the event plus the count of objects plus 3"),
    ];
    asked.iter().find(|(so, _)| !so).map(|(_, wrong)| *wrong)
}

/// Holds the checker to the line that its own answer must carry, and then to the model. Weakening the certificate to its
/// own criterion is refused with the same number. Gives the number, the view and the event.
fn hold_line(comparer: &mut Comparer, (history, certificate): &Pair) -> Stated {
    let (text, proposed) = (history.text(), certificate.text());
    let (answer, places) = given(comparer, &text, &proposed);
    if answer == 0 || answer >= 11 {
        let wrong = wrong_line(history, &text, answer, places);
        comparer.note(wrong.is_none(), || {
            format!("{answer}, places {places:?}: {}\n{}", wrong.unwrap_or(""), String::from_utf8_lossy(&text))
        });
    }
    comparer.check(&text, &proposed);
    let wanted = certificate.criterion.number();
    let weakened = comparer.compare(Call::Weaken { wanted, buffer: 0 }, &text, &proposed);
    if !comparer.done() {
        let stated = if answer == 0 { 18 } else { answer };
        comparer.note(weakened == stated, || format!("weakening: given {weakened}, stated {stated}"));
    }
    (answer, places[3], places[4])
}

/// How often each fault was answered: at the lowest event or view where it can be, at the last, and between; and with each
/// count of objects.
#[derive(Default)]
struct Seen {
    places: BTreeMap<(u32, &'static str), usize>,
    objects: BTreeMap<(u32, usize), usize>,
}

impl Seen {
    /// Counts an answer at a place of so many. Event 0 has no earlier event, so 11 is at event 1 or later.
    fn count(&mut self, fault: u32, objects: usize, place: usize, of: usize) {
        let lowest = usize::from(fault == 11);
        let name = if place == lowest { "first" } else if place + 1 == of { "last" } else { "middle" };
        *self.places.entry((fault, name)).or_default() += 1;
        *self.objects.entry((fault, objects)).or_default() += 1;
    }

    /// Each fault was there many times at each kind of place, and often enough with every count of objects that a history
    /// with events can have.
    fn hold(&self, comparer: &mut Comparer) {
        for fault in FAULTS {
            for name in ["first", "middle", "last"] {
                let seen = self.places.get(&(fault, name)).copied().unwrap_or(0);
                comparer.note(seen >= 30, || format!("{fault} at the {name} place: only {seen} times"));
            }
            for objects in 1..=16 {
                let seen = self.objects.get(&(fault, objects)).copied().unwrap_or(0);
                comparer.note(seen >= 10, || format!("{fault} with {objects} objects: only {seen} times"));
            }
        }
    }
}

/// Puts each fault into the pair, at up to three places, and holds the checker to it.
fn each_fault(comparer: &mut Comparer, random: &mut Random, pair: &Pair, seen: &mut Seen) {
    for fault in FAULTS {
        let count = places_for(fault, pair);
        let from = random.under(count.max(1));
        let lowest = (0..count).find_map(|place| Some((place, put(fault, pair, place)?)));
        let highest = (0..count).rev().find_map(|place| Some((place, put(fault, pair, place)?)));
        let between = (from..count).find_map(|place| Some((place, put(fault, pair, place)?)));
        for (place, (faulty, stated)) in [lowest, highest, between].into_iter().flatten() {
            let given = hold_line(comparer, &faulty);
            if comparer.done() {
                return;
            }
            comparer.note(given == stated, || format!("given {given:?}, stated {stated:?}"));
            seen.count(given.0, pair.0.objects.len(), place, count);
        }
    }
}

/// Every fault at every kind of place, with 0 to 16 objects and up to 64 events; accepted pairs and damaged ones.
pub fn faults(comparer: &mut Comparer, random: &mut Random, rounds: usize) {
    let mut seen = Seen::default();
    for round in 0..rounds.div_ceil(4) {
        let pair = accepted(random, round % 17);
        let given = hold_line(comparer, &pair);
        if !comparer.done() {
            comparer.note(given == ACCEPTED, || format!("given {given:?} for a pair that was made to be accepted"));
        }
        each_fault(comparer, random, &pair, &mut seen);
        let mut damaged = pair;
        for _ in 0..1 + random.under(3) {
            if random.once_in(3) {
                damage_history(random, &mut damaged.0);
            } else {
                damage_certificate(random, &damaged.0, &mut damaged.1);
            }
            hold_line(comparer, &damaged);
        }
        if comparer.done() {
            return;
        }
    }
    // A run of fewer rounds may miss one.
    if !comparer.until_first && rounds >= 4_000 {
        seen.hold(comparer);
    }
}
