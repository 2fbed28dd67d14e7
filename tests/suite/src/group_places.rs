//! Every place that an answer can carry: each line of long texts, each event, each view, each pair of them.

use crate::certificate::{Certificate, Criterion, List, CRITERIA};
use crate::compare::Comparer;
use crate::history::{Event, History};
use crate::make::{certified, lose_now_and_then, lose_some, random_order, register_history, shape, Size};
use crate::objects::{Kind, Op};
use crate::random::Random;
use crate::samples::{channel, object, window, with_lost};

/// A full history with a certificate of the criterion that is accepted.
fn full(random: &mut Random, criterion: Criterion) -> (History, Certificate) {
    let size = Size { events: 64, objects: 16, processes: 8, values: 65_536, width: 8 };
    let mut history = shape(random, size);
    let certificate = certified(random, &mut history, criterion);
    (history, certificate)
}

/// The text of a history as it is, and with some answers lost.
fn two_texts(random: &mut Random, history: &History) -> [Vec<u8>; 2] {
    let mut lost = history.clone();
    lose_some(random, &mut lost);
    [history.text(), lost.text()]
}

/// Each line of a text with a fault put on it, alone and with another one further down.
pub fn lines(comparer: &mut Comparer, random: &mut Random, _: usize) {
    for criterion in CRITERIA {
        let (history, certificate) = full(random, criterion);
        let (history, certificate) = (history.text(), certificate.text());
        for (text, other, is_history) in [(&history, &certificate, true), (&certificate, &history, false)] {
            let lines: Vec<&[u8]> = text.split_inclusive(|byte| *byte == 10).collect();
            let fields = |line: &[u8]| line[..line.len() - 1].split(|byte| *byte == b' ').map(|field| field.to_vec()).collect::<Vec<_>>();
            for place in 0..lines.len() {
                let mut spoilt: Vec<Vec<u8>> = vec![];
                let mut with = |field: usize, new: &[u8]| {
                    let mut fields = fields(lines[place]);
                    if field < fields.len() {
                        fields[field] = new.to_vec();
                        spoilt.push([fields.join(&b' '), vec![10]].concat());
                    }
                };
                for (field, new) in [
                    (0, &b"99"[..]), (1, b"8"), (1, b"64"), (1, b"1,0"), (1, b"2,2"), (2, b"16"), (2, b"0"), (2, b"9"), (2, b"1"),
                    (2, b"-"), (3, b"push"), (3, b"write"), (4, b"5"), (4, b"-"), (4, b"65536"), (5, b"1,2,3,4,5,6,7,8,9"), (5, b"-"),
                    (5, b"70000"), (5, b"?"), (5, b"?,1"), (4, b"?"), (1, b"?"), (1, b"channel"), (2, b"64"),
                    (2, b"65"), (5, b"5"),
                ] {
                    with(field, new);
                }
                spoilt.push(b"\n".to_vec());
                spoilt.push(vec![]);
                for line in spoilt {
                    let mut changed = lines.clone();
                    changed[place] = &line;
                    let mut texts = vec![changed.concat()];
                    let later = place + random.under(lines.len() - place);
                    changed[later] = b"x\n";
                    texts.push(changed.concat());
                    for text in texts {
                        let (history, certificate) = if is_history { (&text, other) } else { (other, &text) };
                        comparer.verdict(history, certificate);
                    }
                }
                if comparer.done() {
                    return;
                }
            }
            if comparer.done() {
                return;
            }
        }
    }
}

/// 11 to 13 at each event of a long certificate, alone and with a later one.
pub fn events(comparer: &mut Comparer, random: &mut Random, _: usize) {
    for criterion in CRITERIA.into_iter().filter(|criterion| criterion.has_pasts()) {
        let (history, certificate) = full(random, criterion);
        let texts = two_texts(random, &history);
        for e in 0..64 {
            let mut damaged: Vec<Certificate> = vec![];
            let mut add = |change: &dyn Fn(&mut List)| {
                let mut changed = certificate.clone();
                change(&mut changed.pasts[e]);
                damaged.push(changed);
            };
            // Entries of the past left out, those of its own process all of them, and events added.
            for f in 0..64 {
                if f != e && !history.program_order(f, e) && !random.once_in(3) {
                    continue;
                }
                if certificate.pasts[e].contains(&f) {
                    add(&|past| past.retain(|entry| *entry != f));
                } else {
                    add(&|past| {
                        past.push(f);
                        past.sort_unstable();
                    });
                }
            }
            for mut changed in damaged {
                let text = &texts[usize::from(random.once_in(3))];
                comparer.verdict(text, &changed.text());
                if random.once_in(2) {
                    let later = e + random.under(64 - e);
                    changed.pasts[later] = vec![later];
                    comparer.verdict(text, &changed.text());
                }
            }
            if comparer.done() {
                return;
            }
        }
    }
}

/// 14 and 15 at each view, 14 late and 15 early, and 16 at each view and event.
pub fn views(comparer: &mut Comparer, random: &mut Random, _: usize) {
    for criterion in CRITERIA {
        let (history, certificate) = full(random, criterion);
        let texts = two_texts(random, &history);
        for text in &texts {
            comparer.verdict(text, &certificate.text());
        }
        for place in 0..certificate.views.len() {
            let length = certificate.views[place].order.len();
            let mut damaged = vec![];
            for item in 0..length {
                let mut changed = certificate.clone();
                changed.views[place].order.remove(item);
                damaged.push(changed);
                let mut changed = certificate.clone();
                changed.views[place].order[item] = random.under(64);
                damaged.push(changed);
                let mut changed = certificate.clone();
                changed.views[place].order.swap(item, random.under(length));
                // 14 at another view, before or after.
                if random.once_in(2) {
                    let other = random.under(changed.views.len());
                    changed.views[other].order.pop();
                }
                damaged.push(changed);
                let mut changed = certificate.clone();
                changed.views[place].order.swap(item, length - 1 - item);
                damaged.push(changed);
                if length < 64 {
                    let mut changed = certificate.clone();
                    changed.views[place].order.insert(item, random.under(64));
                    damaged.push(changed);
                }
            }
            for changed in damaged {
                if random.once_in(if certificate.views.len() > 8 { 4 } else { 1 }) {
                    let text = &texts[usize::from(random.once_in(3))];
                    comparer.verdict(text, &changed.text());
                }
            }
            if comparer.done() {
                return;
            }
        }
        // One answer changed: 16 at each event that has one.
        for e in 0..64 {
            for item in 0..history.events[e].answer.as_ref().map_or(0, |answer| answer.len()) {
                let mut changed = history.clone();
                flip(&mut changed, e, item, 1);
                comparer.verdict(&changed.text(), &certificate.text());
                let later = e + random.under(64 - e);
                flip(&mut changed, later, 0, 2);
                comparer.verdict(&changed.text(), &certificate.text());
            }
            // One answer lost, alone and now and then with another one changed.
            let mut changed = with_lost(history.clone(), &[e]);
            let answer = comparer.verdict(&changed.text(), &certificate.text());
            if random.once_in(4) {
                flip(&mut changed, random.under(64), 0, 1);
                comparer.verdict(&changed.text(), &certificate.text());
            }
            if comparer.done() {
                return;
            }
            comparer.note(answer == 0, || format!("{criterion:?}, the answer of {e} lost: {answer}"));
        }
    }
}

/// Changes bits of one value of an event's answer, if it has that value.
fn flip(history: &mut History, e: usize, item: usize, bits: u64) {
    if let Some(value) = history.events[e].answer.as_mut().and_then(|answer| answer.get_mut(item)) {
        *value ^= bits;
    }
}

/// Long replays: the answers that differ are at any place of a view, the last too, and in causal at events that don't number the
/// view. One process reads what another one pushes or writes.
pub fn replays(comparer: &mut Comparer, random: &mut Random, rounds: usize) {
    for _ in 0..rounds.div_ceil(5) {
        let events = 2 + random.under(20);
        let window = window(1 + random.under(8));
        let channel = channel(1 + random.under(3));
        let objects = vec![object(Kind::Register), object(Kind::Queue), object(Kind::Stack), window, channel];
        let mut history = History { objects, events: vec![] };
        for number in 0..events {
            let kind = random.under(5);
            let update = random.once_in(2);
            let op = match (kind, update) {
                (0 | 3, true) => Op::Write,
                (0 | 3, false) => Op::Read,
                (_, true) => Op::Push,
                (_, false) => if random.once_in(2) { Op::Pop } else { Op::Peek },
            };
            let value = update.then_some(number as u64 + 1);
            history.events.push(Event { process: random.under(3), object: kind, op, value, answer: Some(vec![]) });
        }
        for criterion in CRITERIA {
            let certificate = certified(random, &mut history, criterion);
            lose_now_and_then(random, &mut history);
            comparer.check(&history.text(), &certificate.text());
            // Another view of the same set that extends the same order, at one place or at all.
            let mut changed = certificate.clone();
            let only = random.under(changed.views.len());
            let everywhere = random.once_in(3);
            for place in 0..changed.views.len() {
                if place == only || everywhere {
                    let set = changed.views[place].order.clone();
                    let before = |a: usize, b: usize| {
                        if criterion.has_pasts() { certificate.pasts[b].contains(&a) } else { history.program_order(a, b) }
                    };
                    changed.views[place].order = random_order(random, &set, &before);
                }
            }
            comparer.check(&history.text(), &changed.text());
            for _ in 0..3 {
                // One wrong answer or several.
                let mut other = history.clone();
                for _ in 0..1 + random.under(4) {
                    let e = random.under(events);
                    if let Some(value) = other.events[e].answer.as_mut().and_then(|answer| answer.last_mut()) {
                        *value = random.under(events + 1) as u64;
                    }
                }
                comparer.check(&other.text(), &changed.text());
                comparer.check(&other.text(), &certificate.text());
            }
        }
        if comparer.done() {
            return;
        }
    }
    // Each place of a view of 64, the last one too.
    let history = register_history(64, 5);
    let order: List = (0..64).collect();
    let certificate = Certificate::new(&history, Criterion::Sequential, vec![], vec![order]);
    for e in (1..64).step_by(2) {
        for later in (e..64).step_by(2).skip(usize::from(e % 2 == 0)) {
            let mut changed = history.clone();
            flip(&mut changed, e, 0, 1);
            changed.events[later].answer = Some(vec![3]);
            comparer.check(&changed.text(), &certificate.text());
            // The first of them lost: only the later one is wrong, if it isn't the same.
            let lost = with_lost(changed, &[e]);
            let answer = comparer.check(&lost.text(), &certificate.text());
            if comparer.done() {
                return;
            }
            let stated = if later == e { 0 } else { 16 };
            comparer.note(answer == stated, || format!("{e} lost, {later} wrong: given {answer}, stated {stated}"));
        }
    }
}
