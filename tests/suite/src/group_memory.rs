//! Lent memory of every size: the buffers of writing, the slices of places; texts with neighbours in memory; and slices that are
//! NULL.

use crate::checker::ArchiveGivenNull;
use crate::compare::{Call, Comparer};
use crate::damage::{damage_certificate, damage_either, damage_text};
use crate::group_random::pair;
use crate::random::Random;
use crate::samples::q;

/// The lengths of buffers to try for a text: all of them for a short text, and those around its own for a long one.
pub fn lengths_around(text: usize) -> Vec<usize> {
    if text <= 150 {
        return (0..text + 20).collect();
    }
    let mut lengths: Vec<usize> = (0..4).collect();
    lengths.extend(text - 12..text + 12);
    lengths.push(2 * text);
    lengths
}

/// Writes into buffers of every length around the text's.
pub fn buffers(comparer: &mut Comparer, random: &mut Random, rounds: usize) {
    for round in 0..rounds.div_ceil(16) {
        let (history, certificate) = pair(random);
        let (mut history, mut certificate) = (history.text(), certificate.text());
        if round % 4 == 3 {
            damage_either(random, &mut history, &mut certificate);
        }
        for buffer in lengths_around(history.len()) {
            comparer.compare(Call::RewriteHistory { buffer }, &history, &certificate);
        }
        for buffer in lengths_around(certificate.len()) {
            comparer.compare(Call::RewriteCertificate { buffer }, &history, &certificate);
        }
        if comparer.done() {
            return;
        }
    }
}

/// Slices of 0 to 9 places for answers of all kinds.
pub fn slices(comparer: &mut Comparer, random: &mut Random, rounds: usize) {
    for round in 0..rounds.div_ceil(4) {
        let (history, mut certificate) = pair(random);
        if round % 3 == 1 {
            damage_certificate(random, &history, &mut certificate);
        }
        let (mut history, mut certificate) = (history.text(), certificate.text());
        if round % 3 == 2 {
            damage_either(random, &mut history, &mut certificate);
        }
        for places in 0..=9 {
            comparer.compare(Call::Verdict { places }, &history, &certificate);
        }
        if comparer.done() {
            return;
        }
    }
}

/// The same texts with other bytes just before and behind them: none of these may matter.
pub fn neighbours(comparer: &mut Comparer, random: &mut Random, rounds: usize) {
    let before: [&[u8]; 4] = [b"", b"object kind width\n", b"1", b"\n"];
    let behind: [&[u8]; 6] = [b"", b"\n", b"0\n", b"9", b",1\n", b"2 0 0 read - 0\n"];
    for _ in 0..rounds.div_ceil(8) {
        let (history, mut certificate) = pair(random);
        let damage = random.under(5);
        // 11 to 16 too: the line of an event is part of the text that has neighbours.
        if damage == 4 {
            damage_certificate(random, &history, &mut certificate);
        }
        let (mut history, mut certificate) = (history.text(), certificate.text());
        match damage {
            0 => damage_text(random, &mut history),
            1 => damage_text(random, &mut certificate),
            2 => drop(history.pop()),
            3 => drop(certificate.pop()),
            _ => {}
        }
        for behind in behind {
            let before = *random.pick(&before);
            let h = [before, &history, behind].concat();
            let c = [before, &certificate, behind].concat();
            let (h, c) = (&h[before.len()..before.len() + history.len()], &c[before.len()..before.len() + certificate.len()]);
            comparer.check(h, c);
        }
        if comparer.done() {
            return;
        }
    }
    // Empty texts, each with a pointer to a byte that isn't part of it.
    let byte = b"object kind width\n";
    comparer.check(&byte[..0], &byte[..0]);
    comparer.check(&byte[3..3], byte);
}

/// Every function with NULL for each slice that is empty, one or several of them: the answers are those of the empty text, the empty
/// buffer and the empty slice of places.
pub fn nulls(comparer: &mut Comparer, random: &mut Random, rounds: usize) {
    let checker = comparer.checker;
    // Only the archive itself is given NULL; a wrong checker is compared as it is.
    if !comparer.until_first {
        comparer.checker = &ArchiveGivenNull;
    }
    let q = q().text();
    let sequential = |order: &str| format!("criterion sequential\nview order\n0 {order}\n").into_bytes();
    let mut histories = vec![vec![], q, b"object kind width\nevent process object op value answer\n".to_vec(), b"\n".to_vec()];
    let weak = b"criterion weak\nevent past\n0 -\n1 0\nview order\n0 0\n1 0,1\n".to_vec();
    let mut certificates = vec![vec![], sequential("0,1"), sequential("1,0"), sequential("-"), b"\n".to_vec(), weak];
    for _ in 0..rounds.div_ceil(400) {
        let (history, certificate) = pair(random);
        histories.push(history.text());
        certificates.push(certificate.text());
    }
    for history in &histories {
        for certificate in &certificates {
            comparer.compare(Call::Check, history, certificate);
            for places in [0, 7] {
                comparer.compare(Call::Verdict { places }, history, certificate);
            }
            for buffer in [0, 1, 25_000] {
                comparer.compare(Call::RewriteHistory { buffer }, history, certificate);
                comparer.compare(Call::RewriteCertificate { buffer }, history, certificate);
                for wanted in 0..=6 {
                    comparer.compare(Call::Weaken { wanted, buffer }, history, certificate);
                }
                comparer.compare(Call::Sequential { buffer }, history, certificate);
            }
        }
    }
    comparer.checker = checker;
}
