//! Texts at the limits of their lengths and one byte past them, the longest readable ones, and the limits of widths.

use crate::certificate::{Certificate, Criterion, CERTIFICATE_LIMIT};
use crate::compare::{Call, Comparer};
use crate::history::{Event, History, HISTORY_LIMIT};
use crate::objects::{Kind, Op, KINDS};
use crate::random::Random;
use crate::samples::{channel, object, q, window, with_lost};

/// The history with the longest text.
pub fn longest_history() -> History {
    let mut objects = vec![object(Kind::Register); 15];
    objects.push(window(8));
    let mut history = History { objects, events: vec![] };
    for number in 0..64 {
        let answer = vec![65_535 - number % 3; 8];
        let process = number as usize % 8;
        history.events.push(Event { process, object: 15, op: Op::Read, value: None, answer: Some(answer) });
    }
    history
}

/// A certificate of it with the longest text that reads.
pub fn longest_certificate(history: &History) -> Certificate {
    let all: Vec<usize> = (0..64).collect();
    // Repeats in a view are read, so every entry of a view may have two digits.
    Certificate::new(history, Criterion::Causal, vec![all; 64], vec![vec![63; 64]; 64])
}

/// A text made as long as wanted by what stands at its end.
pub fn padded(text: &[u8], length: usize, pad: &[u8], last: &[u8]) -> Vec<u8> {
    let mut padded = text.to_vec();
    while padded.len() + last.len() < length {
        padded.push(pad[(padded.len() - text.len()) % pad.len()]);
    }
    padded.truncate(length.saturating_sub(last.len()));
    padded.extend(last);
    padded
}

pub fn limits(comparer: &mut Comparer, random: &mut Random, _: usize) {
    let history = q().text();
    let certificate: &[u8] = b"criterion sequential\nview order\n0 0,1\n";
    let pads: [&[u8]; 11] =
        [b"7", b"7,", b"0", b",", b" ", b"\n", b"x", b"?", b"\0", b"2 0 0 push 7 -\n", b"1 0 0 pop - 7\n"];
    for pad in pads {
        for last in [&b"\n"[..], b"", b"7\n"] {
            for more in 0..4 {
                let h = padded(&history[..history.len() - 1], HISTORY_LIMIT - 1 + more, pad, last);
                comparer.check(&h, certificate);
                comparer.compare(Call::RewriteHistory { buffer: 20_000 }, &h, certificate);
                let h = padded(b"", HISTORY_LIMIT - 1 + more, pad, last);
                comparer.check(&h, certificate);
                let c = padded(&certificate[..certificate.len() - 1], CERTIFICATE_LIMIT - 1 + more, pad, last);
                comparer.check(&history, &c);
                comparer.compare(Call::RewriteCertificate { buffer: 40_000 }, &history, &c);
                let c = padded(b"", CERTIFICATE_LIMIT - 1 + more, pad, last);
                comparer.check(&history, &c);
                // Both too long, and a faulty history with a certificate that is too long.
                comparer.check(&padded(&history, HISTORY_LIMIT + more, pad, last), &c);
                comparer.check(b"object\n", &c);
            }
        }
        if comparer.done() {
            return;
        }
    }
    for length in [65_535, 65_536, 65_537, 70_000, 200_000] {
        comparer.check(&vec![b'\n'; length], certificate);
        comparer.check(&history, &vec![b'0'; length]);
    }
    // Long numbers and long lists on a line, with every last item.
    for count in [3, 64, 65, 255, 256, 257, 4_000] {
        for item in ["0", "7", "65535", "65536", "01", "-", "", "?"] {
            for place in [0, count / 2, count - 1] {
                let mut items = vec!["1"; count];
                items[place] = item;
                let list = items.join(",");
                let event = format!("object kind width\n0 queue -\nevent process object op value answer\n0 0 0 pop - {list}\n");
                comparer.check(event.as_bytes(), certificate);
                let view = format!("criterion sequential\nview order\n0 {list}\n");
                comparer.check(&history, view.as_bytes());
                let past = format!("criterion weak\nevent past\n0 {list}\n");
                comparer.check(&history, past.as_bytes());
                let number = items.concat();
                let event = format!("object kind width\n0 queue -\nevent process object op value answer\n0 {number} 0 pop - 7\n");
                comparer.check(event.as_bytes(), certificate);
            }
        }
    }
    let longest = longest_history();
    let (h, c) = (longest.text(), longest_certificate(&longest).text());
    if !comparer.until_first {
        // The lengths of the longest texts that are readable, counted by hand.
        assert_eq!((h.len(), c.len()), (4_289, 24_339), "the longest readable texts");
    }
    // A channel with a capacity of two digits has as long a line as a register.
    let mut channels = longest.clone();
    channels.objects[..15].fill(channel(64));
    let channels = channels.text();
    if !comparer.until_first {
        assert_eq!(channels.len(), h.len(), "the longest readable text with channels");
    }
    let all: Vec<usize> = (0..64).collect();
    let lost = with_lost(longest, &all).text();
    if !comparer.until_first {
        // A `?` for eight values of five digits with their commas, in each of 64 lines.
        assert_eq!(lost.len(), h.len() - 64 * (8 * 6 - 2), "the text with every answer lost");
    }
    for h in [&h, &channels, &lost] {
        comparer.check(h, &c);
        for (length, call) in [(h.len(), true), (c.len(), false)] {
            for buffer in [0, 1, length - 1, length, length + 1, length + 1 + random.under(9)] {
                let call = if call { Call::RewriteHistory { buffer } } else { Call::RewriteCertificate { buffer } };
                comparer.compare(call, h, &c);
            }
        }
    }
}

/// Every kind with `-` and with every width up to past the largest limit, the answers stated here by hand: alone, as
/// the last of 16 objects and as the 17th. What is read is written back with its width.
pub fn widths(comparer: &mut Comparer, _: &mut Random, _: usize) {
    let certificate: &[u8] = b"criterion sequential\nview order\n0 -\n";
    let head = "object kind width\n";
    let fifteen: String = (0..15).map(|number| format!("{number} stack -\n")).collect();
    let sixteen = format!("{fifteen}15 stack -\n");
    for (kind, word) in KINDS {
        for width in std::iter::once("-".to_string()).chain((0..=130).map(|width| width.to_string())) {
            let number: Option<u32> = width.parse().ok();
            let stated = match (kind, number) {
                (Kind::Channel, Some(1..=64)) | (Kind::Window, Some(1..=8)) => 0,
                (Kind::Channel | Kind::Window, None) => 4,
                (Kind::Register | Kind::Queue | Kind::Stack, None) => 0,
                (Kind::Register | Kind::Queue | Kind::Stack, Some(1..=8)) => 4,
                (_, Some(_)) => 3,
            };
            for (before, own, stated) in [("", 0, stated), (&fifteen, 15, stated), (&sixteen, 16, 3)] {
                let text = format!("{head}{before}{own} {word} {width}\nevent process object op value answer\n");
                let answer = comparer.check(text.as_bytes(), certificate);
                comparer.compare(Call::RewriteHistory { buffer: text.len() }, text.as_bytes(), certificate);
                if comparer.done() {
                    return;
                }
                comparer.note(answer == stated, || {
                    format!("object {own} {word} {width}: given {answer}, stated {stated}")
                });
            }
        }
    }
}
