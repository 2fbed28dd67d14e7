//! Comma lists as they are written (document 02, T-03): of every length that a text has, and with numbers of every count of
//! digits. Where a list stands in the last line, its end and a line feed are the end of a buffer of exactly the text's length.

use crate::certificate::{Certificate, Criterion, List};
use crate::compare::{Call, Comparer};
use crate::group_memory::lengths_around;
use crate::history::History;
use crate::make::register_history;
use crate::objects::Op;
use crate::random::Random;
use crate::samples::{event, window};

/// Holds a writing to what is stated here by hand: 0 for a buffer with room for the text, 18 for every other.
fn hold(comparer: &mut Comparer, text: &[u8], call: impl Fn(usize) -> Call, history: &[u8], certificate: &[u8]) {
    for buffer in lengths_around(text.len()) {
        let answer = comparer.compare(call(buffer), history, certificate);
        if comparer.done() {
            return;
        }
        let stated = if buffer < text.len() { 18 } else { 0 };
        comparer.note(answer == stated, || format!("{:?}: given {answer}, stated {stated}", call(buffer)));
    }
}

/// Past and view lists of 0 to 64 events: as the last line of the text, a view; as the last of the pasts, with views behind it.
pub fn events(comparer: &mut Comparer, _: &mut Random, _: usize) {
    let history = register_history(64, 8);
    let text = history.text();
    for count in 0..=64 {
        // Entries of one digit and of two, in no order.
        let view: List = (0..count).map(|place| (place * 37 + count) % 64).collect();
        let past: List = (64 - count..64).collect();
        let mut pasts = vec![vec![]; 63];
        pasts.push(past);
        let views = vec![vec![0]; 64];
        for certificate in [
            Certificate::new(&history, Criterion::Weak, pasts.clone(), views),
            Certificate::new(&history, Criterion::Strict, pasts, vec![view.clone(); 8]),
            Certificate::new(&history, Criterion::Sequential, vec![], vec![view]),
        ] {
            let certificate = certificate.text();
            hold(comparer, &certificate, |buffer| Call::RewriteCertificate { buffer }, &text, &certificate);
        }
    }
}

/// Answers of 1 to 8 values, each of one to five digits, in the last line of the text.
pub fn values(comparer: &mut Comparer, _: &mut Random, _: usize) {
    for width in 1..=8 {
        for value in [0, 7, 10, 99, 100, 999, 1_000, 9_999, 10_000, 65_535] {
            let read = event(7, 0, Op::Read, None, &vec![value; width]);
            let history = History { objects: vec![window(width)], events: vec![read] }.text();
            hold(comparer, &history, |buffer| Call::RewriteHistory { buffer }, &history, b"");
        }
    }
}
