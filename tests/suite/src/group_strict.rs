//! Strict (document 02, T-06): certificates from logs of a broadcast, in which each process applies all events in an order
//! of its own; 20 at every view; and all weakenings from and to strict.

use crate::answers::{hold, wrong_by, ACCEPTED};
use crate::certificate::{Certificate, Criterion};
use crate::check::NONE;
use crate::compare::Comparer;
use crate::damage::{damage_certificate, damage_history};
use crate::group_carried::{answering_otherwise, outside_past, turned, without_first};
use crate::group_weaken::into_buffers;
use crate::history::History;
use crate::make::{certified, lose_now_and_then, random_size, shape, Size};
use crate::random::Random;

/// A random history and the strict certificate of a log of a broadcast.
fn logged(random: &mut Random, size: Size) -> (History, Certificate) {
    let mut history = shape(random, size);
    let certificate = certified(random, &mut history, Criterion::Strict);
    (history, certificate)
}

/// A certificate from a log is accepted, with lost answers too. With a wrong answer it is refused with 16 at its process's
/// view; damaged ones get what the model says.
pub fn logs(comparer: &mut Comparer, random: &mut Random, rounds: usize) {
    for _ in 0..rounds.div_ceil(4) {
        let size = random_size(random);
        let (mut history, certificate) = logged(random, size);
        hold(comparer, "a log", &history, &certificate.text(), ACCEPTED);
        lose_now_and_then(random, &mut history);
        hold(comparer, "a log, answers lost", &history, &certificate.text(), ACCEPTED);
        let e = random.under(history.events.len().max(1));
        let otherwise = |e: usize| Some((e, answering_otherwise(&history, e)?));
        if let Some((e, wrong)) = (e..history.events.len()).find_map(otherwise) {
            let stated = wrong_by(Criterion::Strict, &wrong, e);
            hold(comparer, "a log, a wrong answer", &wrong, &certificate.text(), stated);
        }
        let mut damaged = certificate;
        for _ in 0..3 {
            if random.once_in(4) {
                damage_history(random, &mut history);
            } else {
                damage_certificate(random, &history, &mut damaged);
            }
            comparer.check(&history.text(), &damaged.text());
        }
        if comparer.done() {
            return;
        }
    }
}

/// A log of a broadcast among so many processes in which some event can go before an own one in every view.
fn loose(random: &mut Random, processes: usize) -> (History, Certificate) {
    loop {
        let size = Size { events: 8 * processes, objects: 4, processes, values: 100, width: 4 };
        let (history, certificate) = logged(random, size);
        let views = 0..certificate.views.len();
        if views.len() == processes && views.into_iter().all(|place| outside_past(&history, &certificate, place).is_some()) {
            return (history, certificate);
        }
    }
}

/// 20 at each view of two to eight processes: alone, with another one at a later view, with 14 and 15 at any view, which
/// come first, and with 16 at any view, which comes behind.
pub fn views(comparer: &mut Comparer, random: &mut Random, rounds: usize) {
    for round in 0..rounds.div_ceil(60) {
        let (history, certificate) = loose(random, 2 + round % 7);
        let count = certificate.views.len();
        let number = |place: usize| certificate.views[place].number as u32;
        for place in 0..count {
            let faulty = outside_past(&history, &certificate, place).expect("it is loose");
            hold(comparer, "20", &history, &faulty.text(), (20, number(place), NONE));
            let other = random.under(count);
            if let Some(twice) = outside_past(&history, &faulty, other).filter(|_| other > place) {
                hold(comparer, "20 twice", &history, &twice.text(), (20, number(place), NONE));
            }
            let less = without_first(&faulty, other).expect("a view has events");
            hold(comparer, "20 and 14", &history, &less.text(), (14, number(other), NONE));
            if let Some(against) = turned(&history, &faulty, other) {
                hold(comparer, "20 and 15", &history, &against.text(), (15, number(other), NONE));
            }
            for e in (0..history.events.len()).filter(|_| random.once_in(4)) {
                if let Some(wrong) = answering_otherwise(&history, e) {
                    hold(comparer, "20 and 16", &wrong, &faulty.text(), (20, number(place), NONE));
                }
            }
            if comparer.done() {
                return;
            }
        }
    }
}

/// The certificates of a log and of the sequential order of the same events, weakened to every number, into buffers of
/// every length around the text's.
pub fn pairs(comparer: &mut Comparer, random: &mut Random, rounds: usize) {
    for _ in 0..rounds.div_ceil(100) {
        let size = random_size(random);
        let (mut history, certificate) = logged(random, size);
        into_buffers(comparer, &history.text(), &certificate.text());
        let whole = certified(random, &mut history, Criterion::Sequential);
        into_buffers(comparer, &history.text(), &whole.text());
        if comparer.done() {
            return;
        }
    }
}
