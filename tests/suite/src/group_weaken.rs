//! Weakening. What the model makes is held to the checker's check: an accepted certificate and a pair give an accepted text.
//! The archive's own weakening is compared with the model's.

use crate::certificate::{CERTIFICATE_LIMIT, CRITERIA};
use crate::check::{CheckRules, Document01};
use crate::compare::{Call, Comparer};
use crate::damage::damaged_texts;
use crate::group_limits::padded;
use crate::group_memory::lengths_around;
use crate::group_random::pair;
use crate::history::HISTORY_LIMIT;
use crate::random::Random;
use crate::weaken::{is_pair, weaken_texts, weakened};

/// The model's weakened texts are accepted.
pub fn accepted(comparer: &mut Comparer, random: &mut Random, rounds: usize) {
    for _ in 0..rounds.div_ceil(2) {
        let (history, certificate) = pair(random);
        assert_eq!(Document01.answer_to(&history, &certificate), 0);
        for wanted in CRITERIA {
            let weaker = weakened(&history, &certificate, wanted);
            assert_eq!(weaker.is_some(), is_pair(certificate.criterion, wanted), "the pairs are listed twice in the model");
            let Some(weaker) = weaker else { continue };
            assert_eq!(weaker.criterion, wanted);
            let answer = comparer.compare(Call::Check, &history.text(), &weaker.text());
            if comparer.done() {
                return;
            }
            comparer.note(answer == 0, || format!("{:?} weakened to {wanted:?} is not accepted: {answer}", certificate.criterion));
        }
    }
}

/// The numbers wanted: the six, and others that must not be taken for them.
const WANTED: [u32; 15] = [0, 1, 2, 3, 4, 5, 6, 7, 255, 256, 260, 261, 65_536, 0x8000_0000, 0xFFFF_FFFF];

/// One certificate weakened to each wanted number, into buffers of every length around the text's.
pub fn into_buffers(comparer: &mut Comparer, history: &[u8], certificate: &[u8]) {
    for wanted in 0..=7 {
        // On a refusal the lengths around the given text are tried.
        let length = weaken_texts(&Document01, history, certificate, wanted).map_or(certificate.len(), |text| text.len());
        for buffer in lengths_around(length) {
            comparer.compare(Call::Weaken { wanted, buffer }, history, certificate);
        }
    }
}

/// Accepted certificates weakened to each wanted number, into buffers of every length around the text's.
pub fn buffers(comparer: &mut Comparer, random: &mut Random, rounds: usize) {
    for _ in 0..rounds.div_ceil(16) {
        let (history, certificate) = pair(random);
        into_buffers(comparer, &history.text(), &certificate.text());
        if comparer.done() {
            return;
        }
    }
    // The longest weakened texts.
    for processes in [1, 8] {
        let history = crate::make::register_history(64, processes);
        let all: Vec<usize> = (0..64).collect();
        let certificate = crate::certificate::Certificate::new(&history, crate::certificate::Criterion::Sequential, vec![], vec![all]);
        into_buffers(comparer, &history.text(), &certificate.text());
    }
}

/// Certificates of all kinds, valid and damaged, weakened to each wanted number.
pub fn damaged(comparer: &mut Comparer, random: &mut Random, rounds: usize) {
    for round in 0..rounds {
        let (history, certificate) = pair(random);
        let (history, certificate) = damaged_texts(random, round, history, certificate);
        for wanted in WANTED {
            let buffer = *random.pick(&[0, 1, certificate.len(), 5_000, 25_000]);
            comparer.compare(Call::Weaken { wanted, buffer }, &history, &certificate);
        }
        comparer.compare(Call::Sequential { buffer: 250 }, &history, &certificate);
        if comparer.done() {
            return;
        }
    }
}

/// A history or a certificate that is longer than its limit, or both, weakened to each wanted number and put in one line: 1,
/// whatever is wanted and however short the buffer is. Only a fault of the history comes before a certificate that is too long.
pub fn too_long(comparer: &mut Comparer, random: &mut Random, rounds: usize) {
    for _ in 0..rounds.div_ceil(100) {
        let (history, certificate) = pair(random);
        let (history, certificate) = (history.text(), certificate.text());
        for more in 0..3 {
            let long_history = padded(&history, HISTORY_LIMIT + more, b"\n", b"");
            let long_certificate = padded(&certificate, CERTIFICATE_LIMIT + more, b"\n", b"");
            let pairs = [(&long_history, &certificate), (&history, &long_certificate), (&long_history, &long_certificate)];
            let calls = |buffer: usize| {
                let weakenings = WANTED.into_iter().map(move |wanted| Call::Weaken { wanted, buffer });
                weakenings.chain([Call::Sequential { buffer }])
            };
            for call in [0, 40_000].into_iter().flat_map(calls) {
                for (history, certificate) in pairs {
                    let answer = comparer.compare(call, history, certificate);
                    if comparer.done() {
                        return;
                    }
                    // At the limit itself the text ends in empty lines.
                    let stated = if more == 0 { 2 } else { 1 };
                    comparer.note(answer == stated, || format!("too long texts, {call:?}: given {answer}, stated {stated}"));
                }
                comparer.compare(call, b"object\n", &long_certificate);
            }
        }
    }
}
