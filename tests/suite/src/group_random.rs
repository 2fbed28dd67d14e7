//! Random texts: valid, damaged as records, damaged as texts, and random bytes.

use crate::certificate::{Certificate, CRITERIA};
use crate::compare::{Call, Comparer};
use crate::damage::{damage_certificate, damage_history, damage_text, random_bytes};
use crate::history::History;
use crate::make::{certified, lose_now_and_then, random_answers, random_size, shape};
use crate::random::Random;

/// A random history, with lost answers or without, and a certificate that is accepted.
pub fn pair(random: &mut Random) -> (History, Certificate) {
    let size = random_size(random);
    let mut history = shape(random, size);
    let criterion = *random.pick(&CRITERIA);
    let certificate = certified(random, &mut history, criterion);
    lose_now_and_then(random, &mut history);
    (history, certificate)
}

/// Every function once, with lent memory of a random size.
fn all_calls(comparer: &mut Comparer, random: &mut Random, history: &[u8], certificate: &[u8]) {
    comparer.compare(Call::Check, history, certificate);
    comparer.compare(Call::Verdict { places: 7 }, history, certificate);
    comparer.compare(Call::Verdict { places: random.under(10) }, history, certificate);
    let near = |random: &mut Random, length: usize| (length + random.under(8)).saturating_sub(random.under(6));
    let buffer = near(random, history.len());
    comparer.compare(Call::RewriteHistory { buffer }, history, certificate);
    let buffer = near(random, certificate.len());
    comparer.compare(Call::RewriteCertificate { buffer }, history, certificate);
    let buffer = *random.pick(&[0, 50, 250]);
    comparer.compare(Call::Sequential { buffer }, history, certificate);
}

/// Valid texts, long and short: every one is accepted.
pub fn valid(comparer: &mut Comparer, random: &mut Random, rounds: usize) {
    for _ in 0..rounds {
        let (history, certificate) = pair(random);
        let (history, certificate) = (history.text(), certificate.text());
        let answer = comparer.compare(Call::Check, &history, &certificate);
        if comparer.done() {
            return;
        }
        comparer.note(answer == 0, || "a certificate that was made to be accepted is not".to_string());
        all_calls(comparer, random, &history, &certificate);
    }
}

/// Records with a few things changed: the faults of the check.
pub fn records(comparer: &mut Comparer, random: &mut Random, rounds: usize) {
    for _ in 0..rounds * 5 / 2 {
        let (mut history, mut certificate) = pair(random);
        if random.once_in(8) {
            random_answers(random, &mut history, 3);
            lose_now_and_then(random, &mut history);
        }
        for _ in 0..1 + random.under(3) {
            if random.once_in(3) {
                damage_history(random, &mut history);
            } else {
                damage_certificate(random, &history, &mut certificate);
            }
        }
        comparer.check(&history.text(), &certificate.text());
        if comparer.done() {
            return;
        }
    }
}

/// Texts with a few things changed: the reading refusals.
pub fn texts(comparer: &mut Comparer, random: &mut Random, rounds: usize) {
    for _ in 0..rounds + rounds / 4 {
        let (history, certificate) = pair(random);
        let (history, certificate) = (history.text(), certificate.text());
        for _ in 0..3 {
            let (mut h, mut c) = (history.clone(), certificate.clone());
            for _ in 0..1 + random.under(2) {
                if random.once_in(2) {
                    damage_text(random, &mut h);
                } else {
                    damage_text(random, &mut c);
                }
            }
            comparer.check(&h, &c);
        }
        let mut h = history.clone();
        damage_text(random, &mut h);
        all_calls(comparer, random, &h, &certificate);
        let mut c = certificate.clone();
        damage_text(random, &mut c);
        all_calls(comparer, random, &history, &c);
        if comparer.done() {
            return;
        }
    }
}

/// Bytes of any kind, alone and behind a good beginning.
pub fn bytes(comparer: &mut Comparer, random: &mut Random, rounds: usize) {
    for _ in 0..rounds {
        let (history, certificate) = pair(random);
        let (history, certificate) = (history.text(), certificate.text());
        let limit = *random.pick(&[4, 40, 400]);
        let noise = random_bytes(random, limit);
        all_calls(comparer, random, &noise, &certificate);
        comparer.check(&history, &noise);
        let kept = random.under(history.len() + 1);
        comparer.check(&[&history[..kept], &noise[..]].concat(), &certificate);
        let kept = random.under(certificate.len() + 1);
        comparer.check(&history, &[&certificate[..kept], &noise[..]].concat());
        comparer.check(&certificate, &history);
        if comparer.done() {
            return;
        }
    }
}
