//! Damage done to records and to texts.

use crate::certificate::{Certificate, Criterion, List, View};
use crate::history::{History, CAPACITY_LIMIT};
use crate::make::random_answer;
use crate::objects::{Kind, Op, KINDS};
use crate::random::Random;

/// For each event, what stands before it in its process's view.
fn pasts_in_views(history: &History, certificate: &Certificate) -> Vec<List> {
    let past = |e: usize| {
        let view = certificate.views.iter().find(|view| view.number == history.events[e].process);
        let before = view.into_iter().flat_map(|view| view.order.iter().copied().take_while(|event| *event != e));
        let mut past: List = before.collect();
        past.sort_unstable();
        past.dedup();
        past
    };
    (0..history.events.len()).map(past).collect()
}

/// Changes one thing in a certificate's lists, so that it is still readable most of the time.
pub fn damage_certificate(random: &mut Random, history: &History, certificate: &mut Certificate) {
    let events = history.events.len();
    if events == 0 {
        return;
    }
    let view_count = certificate.views.len();
    let past_count = certificate.pasts.len();
    match random.under(13) {
        0 | 1 => {
            let order = &mut certificate.views[random.under(view_count)].order;
            if order.len() > 1 {
                let place = random.under(order.len() - 1);
                order.swap(place, place + 1);
            }
        }
        2 => {
            let order = &mut certificate.views[random.under(view_count)].order;
            if !order.is_empty() {
                let (a, b) = (random.under(order.len()), random.under(order.len()));
                order.swap(a, b);
            }
        }
        3 => {
            let order = &mut certificate.views[random.under(view_count)].order;
            if !order.is_empty() {
                let place = random.under(order.len());
                order.remove(place);
            }
        }
        4 => {
            let order = &mut certificate.views[random.under(view_count)].order;
            let place = random.under(order.len() + 1);
            order.insert(place, random.under(events));
        }
        5 => {
            let order = &mut certificate.views[random.under(view_count)].order;
            if !order.is_empty() {
                let place = random.under(order.len());
                order[place] = random.under(events);
            }
        }
        6 | 7 if past_count > 0 => {
            let past = &mut certificate.pasts[random.under(past_count)];
            past.push(random.under(events));
            past.sort_unstable();
            past.dedup();
        }
        8 | 9 if past_count > 0 => {
            let past = &mut certificate.pasts[random.under(past_count)];
            if !past.is_empty() {
                let place = random.under(past.len());
                past.remove(place);
            }
        }
        10 if past_count > 0 => {
            // Adds a pair to the order and closes it under transitivity, the views left as they are.
            let (e, f) = (random.under(events), random.under(events));
            let mut added = certificate.pasts[f].clone();
            added.push(f);
            for past in certificate.pasts.iter_mut().enumerate().filter(|(g, past)| *g == e || past.contains(&e)) {
                past.1.extend(&added);
                past.1.sort_unstable();
                past.1.dedup();
            }
        }
        11 => {
            // weak and causal have the same lists, pram and strict the same views; those of the others are turned into one
            // another's.
            let (criterion, orders) = match certificate.criterion {
                Criterion::Weak => (Criterion::Causal, None),
                Criterion::Causal => (Criterion::Weak, None),
                Criterion::Pram if random.once_in(2) => {
                    certificate.pasts = pasts_in_views(history, certificate);
                    (Criterion::Strict, None)
                }
                Criterion::Pram => (Criterion::Sequential, Some(1)),
                Criterion::Sequential => (Criterion::Pram, Some(history.processes().len())),
                Criterion::Converge => (Criterion::Sequential, Some(1)),
                Criterion::Strict => {
                    certificate.pasts.clear();
                    (Criterion::Pram, None)
                }
            };
            if let Some(count) = orders {
                let order = certificate.views[0].order.clone();
                certificate.pasts.clear();
                certificate.views = criterion.view_numbers(history).into_iter().map(|number| View { number, order: order.clone() }).collect();
                assert_eq!(certificate.views.len(), count);
            }
            certificate.criterion = criterion;
        }
        _ => {
            // A view reversed.
            certificate.views[random.under(view_count)].order.reverse();
        }
    }
}

/// Changes one thing in a history, so that it is still readable.
pub fn damage_history(random: &mut Random, history: &mut History) {
    if history.events.is_empty() {
        return;
    }
    let place = random.under(history.events.len());
    let other = random_answer(random, history, place, 4);
    let event = &mut history.events[place];
    let object = &mut history.objects[event.object];
    match random.under(9) {
        0 => event.process = random.under(8),
        1 => {
            if let Some(value) = &mut event.value {
                *value = random.next() % 4;
            }
        }
        2 => {
            event.op = match event.op {
                Op::Pop => Op::Peek,
                Op::Peek => Op::Pop,
                op => op,
            }
        }
        3 => {
            // A pop or a peek finds nothing, or the reverse; a push onto a channel is refused, or the reverse. So is a
            // window of width 1 that is read.
            if object.answer_lengths(event.op) == [0, 1] {
                let empty = event.answer.as_ref().is_some_and(|answer| answer.is_empty());
                let value = event.value.unwrap_or(random.next() % 4);
                event.answer = Some(if empty { vec![value] } else { vec![] });
            }
        }
        4 => {
            if let Some(answer) = &mut event.answer {
                answer.reverse();
            }
        }
        // An answer is lost, or one that was lost is there.
        5 => event.answer = if event.answer.is_some() { None } else { Some(other) },
        6 => {
            // A channel with a slot more or less.
            if object.kind == Kind::Channel {
                let capacity = object.capacity();
                let more = capacity == 1 || capacity < CAPACITY_LIMIT as usize && random.once_in(2);
                object.width = Some(if more { capacity + 1 } else { capacity - 1 });
            }
        }
        7 => match (&mut event.answer, object.kind, event.op) {
            // A read of a window that answers a zero or a value more in front, or its oldest value less; a zero more behind.
            (Some(answer), Kind::Window, Op::Read) => match random.under(4) {
                0 if !answer.is_empty() => drop(answer.remove(0)),
                1 if answer.len() < object.reads() => answer.insert(0, 0),
                2 if answer.len() < object.reads() => answer.insert(0, random.next() % 4),
                3 if answer.len() < object.reads() => answer.push(0),
                _ => {}
            },
            _ => {}
        },
        _ => match &mut event.answer {
            Some(answer) if !answer.is_empty() => {
                let item = random.under(answer.len());
                answer[item] = if random.once_in(2) { (answer[item] + 1) % 65_536 } else { random.next() % 4 };
            }
            _ => {}
        },
    }
}

/// Numbers near limits, and spellings that aren't numbers.
const NUMBERS: [&str; 34] = [
    "0", "1", "2", "6", "7", "8", "9", "15", "16", "17", "63", "64", "65", "255", "256", "65535", "65536", "65537", "131072",
    "4294967295", "4294967296", "4294967303", "18446744073709551615", "18446744073709551616", "18446744073709551623", "-", "",
    "00", "07", "+1", "?", "?,7", "7,?", "??",
];

const BYTES: &[u8] = b"\n\n  ,,--??0123456789\r\t\0\x0b.+_aAeErzZ/:\x7f\x80\xff";

/// The starts of all lines, and the end.
fn line_starts(text: &[u8]) -> Vec<usize> {
    let mut starts = vec![0];
    starts.extend(text.iter().enumerate().filter(|(_, byte)| **byte == 10).map(|(place, _)| place + 1));
    if *starts.last().expect("there is a first start") != text.len() {
        starts.push(text.len());
    }
    starts
}

/// Changes one thing in one of two texts.
pub fn damage_either(random: &mut Random, history: &mut Vec<u8>, certificate: &mut Vec<u8>) {
    let text = if random.once_in(2) { history } else { certificate };
    damage_text(random, text);
}

/// The two texts as they are, or with one thing changed in a record or in a text, each once in four rounds.
pub fn damaged_texts(random: &mut Random, round: usize, mut history: History, mut certificate: Certificate) -> (Vec<u8>, Vec<u8>) {
    match round % 4 {
        1 => damage_certificate(random, &history, &mut certificate),
        2 => damage_history(random, &mut history),
        _ => {}
    }
    let (mut history, mut certificate) = (history.text(), certificate.text());
    if round % 4 == 3 {
        damage_either(random, &mut history, &mut certificate);
    }
    (history, certificate)
}

/// Changes one thing in a text.
pub fn damage_text(random: &mut Random, text: &mut Vec<u8>) {
    if text.is_empty() {
        text.push(*random.pick(BYTES));
        return;
    }
    let place = random.under(text.len());
    let starts = line_starts(text);
    let lines = starts.len() - 1;
    let line_of = |number: usize| starts[number]..starts[number + 1];
    match random.under(18) {
        0 | 1 => text[place] = *random.pick(BYTES),
        2 => text[place] = random.next() as u8,
        3 => {
            text.remove(place);
        }
        4 => text.insert(place, text[place]),
        5 => text.insert(place, *random.pick(BYTES)),
        6 => {
            text.drain(line_of(random.under(lines)));
        }
        7 => {
            let range = line_of(random.under(lines));
            let line = text[range.clone()].to_vec();
            text.splice(range.start..range.start, line);
        }
        8 => {
            let (a, b) = (random.under(lines), random.under(lines));
            let (a, b) = (a.min(b), a.max(b));
            let (low, high) = (line_of(a), line_of(b));
            let mut swapped = text[..low.start].to_vec();
            swapped.extend(&text[high.clone()]);
            if a != b {
                swapped.extend(&text[low.end..high.start]);
                swapped.extend(&text[low]);
            }
            swapped.extend(&text[high.end..]);
            *text = swapped;
        }
        9..=12 => {
            // One of the text's numbers, `-` or `?` is changed.
            let is_number = |byte: u8| byte.is_ascii_digit() || byte == b'-' || byte == b'?';
            if let Some(at) = (place..text.len()).find(|at| is_number(text[*at])) {
                let mut start = at;
                while start > 0 && text[start - 1].is_ascii_digit() && text[at].is_ascii_digit() {
                    start -= 1;
                }
                let mut end = at + 1;
                while end < text.len() && text[end].is_ascii_digit() && text[at].is_ascii_digit() {
                    end += 1;
                }
                let new = random.pick(&NUMBERS).bytes();
                text.splice(start..end, new);
            }
        }
        13 => text.truncate(place),
        14 => {
            let count = 1 + random.under(4);
            for _ in 0..count {
                text.push(*random.pick(BYTES));
            }
        }
        15 => {
            // The last field of a line becomes `?`, or another one does.
            let range = line_of(random.under(lines));
            let spaces: Vec<usize> = range.clone().filter(|at| text[*at] == b' ').collect();
            if let Some(last) = spaces.last() {
                let space = if random.once_in(4) { *random.pick(&spaces) } else { *last };
                let end = (space + 1..range.end).find(|at| matches!(text[*at], b' ' | 10)).unwrap_or(range.end);
                text.splice(space + 1..end, *b"?");
            }
        }
        16 => {
            // The kind of an object becomes another one, its width as it was.
            let (old, new) = (random.pick(&KINDS).1, random.pick(&KINDS).1);
            if let Some(at) = text.windows(old.len()).position(|word| word == old.as_bytes()) {
                text.splice(at..at + old.len(), new.bytes());
            }
        }
        _ => {
            // A line moved to the end of the text.
            let range = line_of(random.under(lines));
            let line: Vec<u8> = text.drain(range).collect();
            text.extend(line);
        }
    }
}

/// Random bytes: any, or those that texts are made of.
pub fn random_bytes(random: &mut Random, limit: usize) -> Vec<u8> {
    let length = random.under(limit + 1);
    let words = [
        "object kind width\n", "event process object op value answer\n", "criterion weak\n", "criterion pram\n",
        "criterion strict\n", "event past\n",
        "view order\n", "0 queue -\n", "0 0 0 push 7 -\n", "0 0 0 pop - ?\n", " ", "\n", ",", "-", "?", "0", "1",
        "read", "window", "0 channel 1\n", "0 0 0 push 7 7\n",
    ];
    match random.under(3) {
        0 => (0..length).map(|_| random.next() as u8).collect(),
        1 => (0..length).map(|_| *random.pick(BYTES)).collect(),
        _ => (0..random.under(12)).flat_map(|_| random.pick(&words).bytes()).collect(),
    }
}
