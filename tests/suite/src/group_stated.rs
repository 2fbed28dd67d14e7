//! What document 01 states outright: the sample dispensers with their answers and places, and texts whose fault its
//! words name; and the same of lost answers, of channels, of windows, of the lines that faults carry and of strict, by
//! T-01, T-02, T-04, T-05 and T-06 of document 02. The numbers are written here by hand, so that the model is held to
//! them as well. The line of an event is found from its heading (`carried`), and written by hand in the group of the
//! lines.

use crate::certificate::Criterion;
use crate::check::{Document01, Rules, NONE};
use crate::compare::{crop, Call, Comparer};
use crate::history::{History, HistoryRules};
use crate::random::Random;
use crate::samples::{c, certificate, m, one_slot, q, r, stack, stack_certificate, w, with_lost};

/// Holds the checker and the model to a stated answer and its places: criterion, text, line, view, event, start, length.
fn stated(comparer: &mut Comparer, name: &str, history: &[u8], certificate: &[u8], answer: u32, places: [u32; 7]) {
    if comparer.done() {
        return;
    }
    let verdict = Document01.check_texts(history, certificate);
    assert_eq!((verdict.answer, verdict.places()), (answer, places), "the model itself differs from what is stated: {name}");
    let given = comparer.check(history, certificate);
    comparer.note(given == answer, || format!("{name}: given {given}, stated {answer} for \"{}\"", crop(certificate)));
    // The other functions on the same texts.
    for call in [
        Call::RewriteHistory { buffer: history.len() },
        Call::RewriteCertificate { buffer: certificate.len() },
        Call::Weaken { wanted: 1, buffer: certificate.len() + 30 },
        Call::Weaken { wanted: 4, buffer: certificate.len() },
        Call::Weaken { wanted: 5, buffer: certificate.len() + 30 },
    ] {
        comparer.compare(call, history, certificate);
    }
}

/// The places of an answer that is no reading refusal. Where it has an event, it carries that event's line of the history,
/// which is found here by the heading above it.
fn carried(criterion: Criterion, history: &[u8], view: Option<u32>, event: Option<u32>) -> [u32; 7] {
    let (criterion, view) = (criterion.number(), view.unwrap_or(NONE));
    let Some(event) = event else { return [criterion, 0, NONE, view, NONE, 0, 0] };
    let text = std::str::from_utf8(history).expect("it is ASCII");
    let above = text.find(EVENTS).expect("it has the heading") + EVENTS.len();
    let objects = text[..above].matches('\n').count() - 2;
    let start = above + text[above..].split_inclusive('\n').take(event as usize).map(str::len).sum::<usize>();
    let length = text[start..].find('\n').expect("its line ends");
    [criterion, 1, event + objects as u32 + 3, view, event, start as u32, length as u32]
}

/// The sample dispensers and the edges.
pub fn samples(comparer: &mut Comparer, _: &mut Random, _: usize) {
    use Criterion::{Causal, Converge, Pram, Sequential, Weak};
    let mut say = |name: &str, history: &History, certificate: crate::certificate::Certificate, answer, view, event| {
        let text = history.text();
        let places = carried(certificate.criterion, &text, view, event);
        stated(comparer, name, &text, &certificate.text(), answer, places);
    };
    say("Q sequential 0,1", &q(), certificate(&q(), Sequential, &[], &[&[0, 1]]), 0, None, None);
    say("Q sequential 1,0", &q(), certificate(&q(), Sequential, &[], &[&[1, 0]]), 16, Some(0), Some(1));
    say("Q sequential 0", &q(), certificate(&q(), Sequential, &[], &[&[0]]), 14, Some(0), None);
    say("Q pram", &q(), certificate(&q(), Pram, &[], &[&[0, 1], &[0, 1]]), 0, None, None);
    let views: [&[usize]; 4] = [&[0], &[2, 0, 1], &[2], &[0, 2, 3]];
    say("W causal", &w(), certificate(&w(), Causal, &[&[], &[0, 2], &[], &[0, 2]], &views), 0, None, None);
    say("W past of 1 as 2 only", &w(), certificate(&w(), Causal, &[&[], &[2], &[], &[0, 2]], &views), 11, None, Some(1));
    say("C converge", &c(), certificate(&c(), Converge, &[&[], &[], &[1], &[0, 1, 2]], &[&[0, 1, 2, 3]]), 0, None, None);
    let pasts: [&[usize]; 5] = [&[], &[], &[], &[0, 1, 2, 3], &[0, 1, 2, 3]];
    say("R weak, any views", &r(), certificate(&r(), Weak, &pasts, &[&[], &[0, 0], &[4], &[], &[1]]), 12, None, Some(3));
    let p2 = certificate(&m(), Pram, &[], &[&[0, 1, 2, 3, 4], &[0, 1, 2, 3, 4], &[1, 2, 3, 4, 0]]);
    say("M, p2's view 1,2,3,4,0", &m(), p2, 0, None, None);
    say("the empty history", &History::default(), certificate(&History::default(), Sequential, &[], &[&[]]), 0, None, None);

    // Q with event 1's answer lost: the order that Q itself refuses is accepted, under every criterion.
    let lost = with_lost(q(), &[1]);
    say("Q lost, sequential 0,1", &lost, certificate(&lost, Sequential, &[], &[&[0, 1]]), 0, None, None);
    say("Q lost, sequential 1,0", &lost, certificate(&lost, Sequential, &[], &[&[1, 0]]), 0, None, None);
    say("Q lost, sequential 0", &lost, certificate(&lost, Sequential, &[], &[&[0]]), 14, Some(0), None);
    say("Q lost, pram", &lost, certificate(&lost, Pram, &[], &[&[0, 1], &[1, 0]]), 0, None, None);
    for criterion in [Weak, Causal] {
        let of = |history: &History, pasts: &[&[usize]], views: &[&[usize]]| {
            certificate(history, criterion, pasts, views)
        };
        say("Q lost, no pasts", &lost, of(&lost, &[&[], &[]], &[&[0], &[1]]), 0, None, None);
        say("Q, no pasts", &q(), of(&q(), &[&[], &[]], &[&[0], &[1]]), 16, Some(1), Some(1));
        say("Q lost, 1 in 0's past", &lost, of(&lost, &[&[1], &[]], &[&[1, 0], &[1]]), 0, None, None);
        say("Q lost, not its set", &lost, of(&lost, &[&[], &[]], &[&[0], &[]]), 14, Some(1), None);
        say("Q lost, against", &lost, of(&lost, &[&[1], &[]], &[&[0, 1], &[1]]), 15, Some(0), None);
        say("Q lost, in its own past", &lost, of(&lost, &[&[], &[1]], &[&[0], &[1]]), 12, None, Some(1));
    }
    say("Q lost, converge", &lost, certificate(&lost, Converge, &[&[], &[]], &[&[0, 1]]), 0, None, None);
    say("Q, converge", &q(), certificate(&q(), Converge, &[&[], &[]], &[&[0, 1]]), 16, Some(0), Some(1));
    // The push's answer lost: it still takes effect, so all is as for Q.
    let lost = with_lost(q(), &[0]);
    say("Q, the push lost, 0,1", &lost, certificate(&lost, Sequential, &[], &[&[0, 1]]), 0, None, None);
    say("Q, the push lost, 1,0", &lost, certificate(&lost, Sequential, &[], &[&[1, 0]]), 16, Some(0), Some(1));
    // A lost pop takes its value, so a later one doesn't get it: only before it.
    let mut twice = q();
    twice.events.push(crate::samples::event(2, 0, crate::objects::Op::Pop, None, &[7]));
    say("two pops of one value", &twice, certificate(&twice, Sequential, &[], &[&[0, 1, 2]]), 16, Some(0), Some(2));
    let lost = with_lost(twice, &[1]);
    say("a pop behind a lost one", &lost, certificate(&lost, Sequential, &[], &[&[0, 1, 2]]), 16, Some(0), Some(2));
    say("a pop before a lost one", &lost, certificate(&lost, Sequential, &[], &[&[0, 2, 1]]), 0, None, None);
    say("a lost pop first", &lost, certificate(&lost, Sequential, &[], &[&[1, 0, 2]]), 0, None, None);
    let views: [&[usize]; 3] = [&[2, 1, 0], &[2, 1, 0], &[0, 1, 2]];
    say("another process's lost pop", &lost, certificate(&lost, Pram, &[], &views), 16, Some(2), Some(2));
    let cut = certificate(&lost, Converge, &[&[], &[0], &[0, 1]], &[&[0, 1, 2]]);
    say("converge with a lost pop in the past", &lost, cut, 16, Some(0), Some(2));
    let cut = certificate(&lost, Converge, &[&[], &[0], &[0]], &[&[0, 1, 2]]);
    say("converge with a lost pop cut away", &lost, cut, 0, None, None);
    // W with event 1's answer lost: its view may be the other order, but the view of event 3 may not.
    let lost = with_lost(w(), &[1]);
    let pasts: [&[usize]; 4] = [&[], &[0, 2], &[], &[0, 2]];
    let views: [&[usize]; 4] = [&[0], &[0, 2, 1], &[2], &[0, 2, 3]];
    say("W with the other order", &w(), certificate(&w(), Causal, &pasts, &views), 16, Some(1), Some(1));
    say("W lost with the other order", &lost, certificate(&lost, Causal, &pasts, &views), 0, None, None);
    let lacks = certificate(&lost, Causal, &[&[], &[2], &[], &[0, 2]], &views);
    say("W lost, past of 1 as 2 only", &lost, lacks, 11, None, Some(1));
    let views: [&[usize]; 4] = [&[0], &[0, 2, 1], &[2], &[2, 0, 3]];
    say("W lost, 3 the other way", &lost, certificate(&lost, Causal, &pasts, &views), 16, Some(3), Some(3));

    let empty: &[u8] = b"criterion sequential\nview order\n0 -\n";
    let one: &[u8] = b"criterion sequential\nview order\n0 0\n";
    let accepted = carried(Sequential, b"", None, None);
    let width = |width: u32| format!("object kind width\n0 window {width}\nevent process object op value answer\n").into_bytes();
    stated(comparer, "width 8", &width(8), empty, 0, accepted);
    stated(comparer, "width 9", &width(9), empty, 3, [NONE, 1, 2, NONE, NONE, 18, 10]);
    let capacity = |capacity: &str| format!("{HEAD}0 channel {capacity}\n{EVENTS}").into_bytes();
    stated(comparer, "capacity 1", &capacity("1"), empty, 0, accepted);
    stated(comparer, "capacity 64", &capacity("64"), empty, 0, accepted);
    stated(comparer, "capacity 65", &capacity("65"), empty, 3, [NONE, 1, 2, NONE, NONE, 18, 12]);
    stated(comparer, "capacity 0", &capacity("0"), empty, 3, [NONE, 1, 2, NONE, NONE, 18, 11]);
    stated(comparer, "no capacity", &capacity("-"), empty, 4, [NONE, 1, 2, NONE, NONE, 18, 11]);
    let process = |process: u32| {
        format!("object kind width\n0 register -\nevent process object op value answer\n0 {process} 0 write 1 -\n").into_bytes()
    };
    stated(comparer, "process 7", &process(7), one, 0, accepted);
    stated(comparer, "process 8", &process(8), one, 3, [NONE, 1, 4, NONE, NONE, 68, 15]);
    // Each op with its answer lost, written out, and each op of a channel: accepted, and written back as it is.
    for (kind, line) in [
        ("register -", "0 0 0 write 7 ?"),
        ("register -", "0 0 0 read - ?"),
        ("queue -", "0 0 0 push 7 ?"),
        ("queue -", "0 0 0 pop - ?"),
        ("queue -", "0 0 0 peek - ?"),
        ("stack -", "0 0 0 push 7 ?"),
        ("stack -", "0 0 0 pop - ?"),
        ("stack -", "0 0 0 peek - ?"),
        ("window 3", "0 0 0 write 7 ?"),
        ("window 3", "0 0 0 read - ?"),
        ("channel 1", "0 0 0 push 7 ?"),
        ("channel 64", "0 0 0 push 7 ?"),
        ("channel 9", "0 0 0 pop - ?"),
        ("channel 10", "0 0 0 peek - ?"),
        // A channel's first push is taken, and on an empty one pop and peek find nothing.
        ("channel 1", "0 0 0 push 7 -"),
        ("channel 64", "0 0 0 pop - -"),
        ("channel 63", "0 0 0 peek - -"),
    ] {
        let text = format!("object kind width\n0 {kind}\nevent process object op value answer\n{line}\n");
        stated(comparer, line, text.as_bytes(), one, 0, accepted);
        let mut buffer = crate::checker::Lent::new(text.len(), |_| 0u8);
        let mut length = 0;
        comparer.checker.rewrite_history(text.as_bytes(), &mut buffer, &mut length);
        let same = buffer.part() == text.as_bytes() && length == text.len() as u64;
        comparer.note(same, || format!("{line}: written back as \"{}\"", crop(buffer.part())));
    }
}

/// Windows: empty at first, and then the last values written.
pub fn windows(comparer: &mut Comparer, _: &mut Random, _: usize) {
    use Criterion::{Causal, Converge, Pram, Sequential, Weak};
    let mut say = |name: &str, width: u32, lines: &str, order: &str, answer: u32, event: Option<u32>| {
        let history = format!("{HEAD}0 window {width}\n{EVENTS}{lines}");
        let places = carried(Sequential, history.as_bytes(), event.map(|_| 0), event);
        let certificate = format!("criterion sequential\nview order\n0 {order}\n");
        stated(comparer, name, history.as_bytes(), certificate.as_bytes(), answer, places);
    };
    say("nothing at first", 1, "0 0 0 read - -\n", "0", 0, None);
    say("a zero at first", 1, "0 0 0 read - 0\n", "0", 16, Some(0));
    say("nothing at first, width 8", 8, "0 7 0 read - -\n", "0", 0, None);
    say("eight zeros at first", 8, "0 7 0 read - 0,0,0,0,0,0,0,0\n", "0", 16, Some(0));
    say("one zero of eight", 8, "0 7 0 read - 0\n", "0", 16, Some(0));
    let one = "0 0 0 write 4 -\n1 1 0 read - 4\n";
    say("one value", 2, one, "0,1", 0, None);
    say("one value, read before", 2, one, "1,0", 16, Some(1));
    say("one value, width 1", 1, one, "0,1", 0, None);
    say("one value and a zero", 2, &one.replace("- 4\n", "- 0,4\n"), "0,1", 16, Some(1));
    say("no value behind a write", 2, &one.replace("- 4\n", "- -\n"), "0,1", 16, Some(1));
    say("no value before a write", 2, &one.replace("- 4\n", "- -\n"), "1,0", 0, None);
    say("a write of 0", 2, &one.replace('4', "0"), "0,1", 0, None);
    say("a lost write", 2, &one.replace("4 -", "4 ?"), "0,1", 0, None);
    say("a lost read", 2, &one.replace("- 4\n", "- ?\n"), "1,0", 0, None);
    let three = |answer: &str| format!("0 0 0 write 4 -\n1 0 0 write 9 -\n2 0 0 write 7 -\n3 1 0 read - {answer}\n");
    say("the last of three", 1, &three("7"), "0,1,2,3", 0, None);
    say("the first of three", 1, &three("4"), "0,1,2,3", 16, Some(3));
    say("the last two of three", 2, &three("9,7"), "0,1,2,3", 0, None);
    say("the first two of three", 2, &three("4,9"), "0,1,2,3", 16, Some(3));
    say("the first two, read between", 2, &three("4,9"), "0,1,3,2", 0, None);
    say("newest first", 2, &three("7,9"), "0,1,2,3", 16, Some(3));
    say("all three", 3, &three("4,9,7"), "0,1,2,3", 0, None);
    say("all three of four", 4, &three("4,9,7"), "0,1,2,3", 0, None);
    say("a zero and all three", 4, &three("0,4,9,7"), "0,1,2,3", 16, Some(3));
    say("two of all three", 3, &three("9,7"), "0,1,2,3", 16, Some(3));
    say("the same value twice", 2, "0 0 0 write 4 -\n1 0 0 write 4 -\n2 1 0 read - 4,4\n", "0,1,2", 0, None);
    say("the same value once", 2, "0 0 0 write 4 -\n1 0 0 write 4 -\n2 1 0 read - 4\n", "0,1,2", 16, Some(2));
    // As many writes as leave room for a read.
    let writes: String = (0..63).map(|e| format!("{e} {} 0 write {} -\n", e % 8, 300 + e)).collect();
    let all = (0..64).map(|e| e.to_string()).collect::<Vec<_>>().join(",");
    let eight = (355..363).map(|value| value.to_string()).collect::<Vec<_>>().join(",");
    say("63 writes, width 1", 1, &format!("{writes}63 0 0 read - 362\n"), &all, 0, None);
    say("63 writes, width 8", 8, &format!("{writes}63 0 0 read - {eight}\n"), &all, 0, None);
    say("63 writes, width 7", 7, &format!("{writes}63 0 0 read - {}\n", &eight[4..]), &all, 0, None);
    say("63 writes, seven of width 8", 8, &format!("{writes}63 0 0 read - {}\n", &eight[4..]), &all, 16, Some(63));

    // 5 is for more values than the width.
    for width in 1..=8 {
        let list = |length: usize| if length == 0 { "-".to_string() } else { vec!["3"; length].join(",") };
        for length in 0..=width {
            let history = format!("{HEAD}0 window {width}\n{EVENTS}0 0 0 read - {}\n", list(length));
            let event = (length > 0).then_some(0);
            let places = carried(Sequential, history.as_bytes(), event, event);
            let certificate = b"criterion sequential\nview order\n0 0\n";
            stated(comparer, "0 to k values", history.as_bytes(), certificate, if length == 0 { 0 } else { 16 }, places);
        }
        let line = format!("0 0 0 read - {}", list(width + 1));
        let history = format!("{HEAD}0 window {width}\n{EVENTS}{line}\n");
        let places = [NONE, 1, 4, NONE, NONE, (HEAD.len() + EVENTS.len() + 11) as u32, line.len() as u32];
        stated(comparer, "a value more than the width", history.as_bytes(), b"", 5, places);
    }

    // Document 01's C, with the zero that T-04 takes out, and C.
    let c_with = |answer: &str| {
        let lines = "0 0 0 write 4 -\n1 1 0 write 9 -\n2 1 0 read - ";
        format!("{HEAD}0 window 2\n{EVENTS}{lines}{answer}\n3 1 0 read - 4,9\n").into_bytes()
    };
    assert_eq!(c_with("9"), c().text());
    let mut say = |name: &str, history: &[u8], criterion: Criterion, lists: &str, answer: u32, at: Option<(u32, u32)>| {
        let text = format!("criterion {}\n{lists}", criterion.word());
        let places = carried(criterion, history, at.map(|at| at.0), at.map(|at| at.1));
        stated(comparer, name, history, text.as_bytes(), answer, places);
    };
    let pasts = "event past\n0 -\n1 -\n2 1\n3 0,1,2\nview order\n";
    let converge = format!("{pasts}0 0,1,2,3\n");
    say("C", &c_with("9"), Converge, &converge, 0, None);
    say("C with its zero", &c_with("0,9"), Converge, &converge, 16, Some((0, 2)));
    say("C, event 2 lost", &c_with("?"), Converge, &converge, 0, None);
    say("C, event 2 as the whole order has it", &c_with("4,9"), Converge, &converge, 16, Some((0, 2)));
    let views = format!("{pasts}0 0\n1 1\n2 1,2\n3 0,1,2,3\n");
    say("C", &c_with("9"), Weak, &views, 0, None);
    say("C with its zero", &c_with("0,9"), Weak, &views, 16, Some((2, 2)));
    // Event 3's view sees both reads of its process, and in it the write of 4 stands before event 2.
    say("C", &c_with("9"), Causal, &views, 16, Some((3, 2)));
    let views = "view order\n0 0,1,2,3\n1 1,2,0,3\n";
    say("C", &c_with("9"), Pram, views, 16, Some((1, 3)));
    say("C with its zero", &c_with("0,9"), Pram, views, 16, Some((1, 2)));
    // Each window has its own width, beside a register that starts at 0.
    let lines = "0 0 0 write 4 -\n1 0 1 write 5 -\n2 0 0 write 6 -\n3 0 1 write 7 -\n4 0 0 read - 6\n5 0 1 read - 5,7\n";
    let more = "6 0 2 read - 0\n7 0 3 read - -\n8 0 2 write 3 -\n9 0 2 read - 3\n";
    let beside = format!("{HEAD}0 window 1\n1 window 2\n2 register -\n3 window 8\n{EVENTS}{lines}{more}");
    let whole = "view order\n0 0,1,2,3,4,5,6,7,8,9\n";
    say("three windows and a register", beside.as_bytes(), Sequential, whole, 0, None);
    let wider = beside.replace("0 window 1\n1 window 2\n", "0 window 2\n1 window 2\n");
    say("a width changed", wider.as_bytes(), Sequential, whole, 16, Some((0, 4)));
}

/// Strict: what T-06 states of it, and what follows from its words.
pub fn strict(comparer: &mut Comparer, _: &mut Random, _: usize) {
    let mut say = |name: &str, history: &[u8], pasts: &[&str], views: &[(u32, &str)], answer: u32, at: Option<u32>, event| {
        let rows = |rows: Vec<String>| rows.concat();
        let pasts = rows(pasts.iter().enumerate().map(|(e, past)| format!("{e} {past}\n")).collect());
        let views = rows(views.iter().map(|(number, order)| format!("{number} {order}\n")).collect());
        let text = format!("criterion strict\nevent past\n{pasts}view order\n{views}");
        let places = carried(Criterion::Strict, history, at, event);
        stated(comparer, name, history, text.as_bytes(), answer, places);
    };
    let q = &q().text();
    say("Q", q, &["-", "0"], &[(0, "0,1"), (1, "0,1")], 0, None, None);
    // With no pasts, event 1 may have nothing before it in its process's view, and then it finds nothing.
    say("Q, 0 before 1 and not in its past", q, &["-", "-"], &[(0, "0,1"), (1, "0,1")], 20, Some(1), None);
    say("Q, 1 before 0 and not in its past", q, &["-", "-"], &[(0, "1,0"), (1, "1,0")], 20, Some(0), None);
    say("Q, both", q, &["-", "-"], &[(0, "1,0"), (1, "0,1")], 20, Some(0), None);
    say("Q, neither", q, &["-", "-"], &[(0, "0,1"), (1, "1,0")], 16, Some(1), Some(1));
    say("Q, the past behind", q, &["-", "0"], &[(0, "0,1"), (1, "1,0")], 15, Some(1), None);
    say("Q, the past behind in the other's view", q, &["-", "0"], &[(0, "1,0"), (1, "0,1")], 15, Some(0), None);
    say("Q, not its set", q, &["-", "0"], &[(0, "0,1"), (1, "0")], 14, Some(1), None);
    say("Q, in its own past", q, &["-", "0,1"], &[(0, "0,1"), (1, "0,1")], 12, None, Some(1));
    // With the pop's answer lost nothing is asked of it, but where it stands is.
    let lost = &with_lost(crate::samples::q(), &[1]).text();
    say("Q lost, neither", lost, &["-", "-"], &[(0, "0,1"), (1, "1,0")], 0, None, None);
    say("Q lost, 0 before 1", lost, &["-", "-"], &[(0, "0,1"), (1, "0,1")], 20, Some(1), None);

    // W's pasts: under causal each read has the other's write before its own process's write.
    let w = &w().text();
    let pasts = ["-", "0,2", "-", "0,2"];
    say("W", w, &pasts, &[(0, "2,0,1,3"), (1, "0,2,3,1")], 20, Some(0), None);
    say("W, 16 early and 20 late", w, &pasts, &[(0, "0,2,1,3"), (1, "0,2,3,1")], 20, Some(1), None);
    say("W, 16 in both", w, &pasts, &[(0, "0,2,1,3"), (1, "2,0,3,1")], 16, Some(0), Some(1));
    say("W, 20 early and 16 late", w, &pasts, &[(0, "2,0,1,3"), (1, "2,0,3,1")], 20, Some(0), None);
    say("W, 20 early and 15 late", w, &pasts, &[(0, "2,0,1,3"), (1, "0,3,2,1")], 15, Some(1), None);
    say("W, 20 early and 14 late", w, &pasts, &[(0, "2,0,1,3"), (1, "0,2,3")], 14, Some(1), None);
    say("W, 15 and 20 in one view", w, &pasts, &[(0, "2,1,0,3"), (1, "2,0,3,1")], 15, Some(0), None);
    say("W, past of 1 as 2 only", w, &["-", "2", "-", "0,2"], &[(0, "2,0,1,3"), (1, "0,2,3,1")], 11, None, Some(1));
    say("W, a past of 3 that 1 lacks", w, &["-", "0,3", "-", "2"], &[(0, "2,0,1,3"), (1, "0,2,3,1")], 13, None, Some(1));
    // 2 in the past of 0: then 0 can't be in that of 2, and process 1 finds 4 behind 9.
    let pasts = ["2", "0,2", "-", "0,2"];
    say("W, 2 in the past of 0", w, &pasts, &[(0, "2,0,1,3"), (1, "2,0,3,1")], 16, Some(1), Some(3));
    say("W, and 0 before 2", w, &pasts, &[(0, "2,0,1,3"), (1, "0,2,3,1")], 15, Some(1), None);

    // Processes 2 and 5. What stands before another process's event isn't asked; before each own event it is.
    let three = TWO_AND_FIVE.as_bytes();
    let pasts = ["-", "-", "1"];
    say("processes 2 and 5", three, &pasts, &[(2, "0,1,2"), (5, "1,2,0")], 0, None, None);
    say("0 before 1 in its view", three, &pasts, &[(2, "0,1,2"), (5, "0,1,2")], 20, Some(5), None);
    say("1 before 0 in its view", three, &pasts, &[(2, "1,0,2"), (5, "1,2,0")], 20, Some(2), None);
    say("1 before 0, and 0 before 1", three, &pasts, &[(2, "1,0,2"), (5, "0,1,2")], 20, Some(2), None);
    say("1, and then 2 before 0", three, &pasts, &[(2, "1,2,0"), (5, "1,2,0")], 20, Some(2), None);
    // 0 in the past of the last own event, which then reads 3, and not of the one before it; the reverse can't be.
    let pasts = ["-", "-", "0,1"];
    say("0 before 2 alone", three, &pasts, &[(2, "0,1,2"), (5, "1,0,2")], 16, Some(5), Some(2));
    say("0 before 1 too", three, &pasts, &[(2, "0,1,2"), (5, "0,1,2")], 20, Some(5), None);
    say("1 in the past of 0", three, &["1", "-", "1"], &[(2, "1,0,2"), (5, "1,2,0")], 0, None, None);
    say("2 before 0 besides", three, &["1", "-", "1"], &[(2, "1,2,0"), (5, "1,2,0")], 20, Some(2), None);
    // What is outside the past need not stand right before the own event.
    let five = format!("{TWO_AND_FIVE}3 2 0 read - 9\n4 6 0 write 9 -\n");
    let pasts = ["-", "-", "1", "0,4", "-"];
    let others = [(5, "1,2,0,4,3"), (6, "4,0,1,2,3")];
    say("before 3 its past", five.as_bytes(), &pasts, &[(2, "0,4,3,1,2"), others[0], others[1]], 0, None, None);
    say("1 among its past", five.as_bytes(), &pasts, &[(2, "0,1,4,3,2"), others[0], others[1]], 20, Some(2), None);

    // The stack of document 001, and its view of process 2 with the push of 3 before the last pop.
    let stack = &stack().text();
    let sample = String::from_utf8(stack_certificate().text()).expect("it is ASCII");
    let pasts: Vec<&str> = sample.lines().skip(2).take(8).map(|line| &line[2..]).collect();
    let (first, second) = ((0, "0,1,2,3,4,5,6,7"), (1, "0,3,4,5,6,7,1,2"));
    say("the stack", stack, &pasts, &[first, second, (2, "0,6,3,4,7,5,1,2")], 0, None, None);
    say("3 pushed before 7", stack, &pasts, &[first, second, (2, "0,6,3,4,1,7,5,2")], 20, Some(2), None);
    say("5 before 7", stack, &pasts, &[first, second, (2, "0,6,3,4,5,7,1,2")], 20, Some(2), None);
    say("3 before 6", stack, &pasts, &[first, second, (2, "0,3,6,4,7,5,1,2")], 20, Some(2), None);
    let wider = ["-", "0", "0,1", "0", "0,3", "0,3,4", "0", "0,3,4,5,6"];
    say("5 in the past of 7", stack, &wider, &[first, second, (2, "0,6,3,4,5,7,1,2")], 16, Some(2), Some(7));
}

/// What T-02 states of channels, and what follows from its words. A history is written by its capacity and its lines.
pub fn channels(comparer: &mut Comparer, _: &mut Random, _: usize) {
    use Criterion::{Causal, Converge, Pram, Sequential, Weak};
    let sequential = |order: &str| format!("criterion sequential\nview order\n0 {order}\n");
    let mut say = |name: &str, capacity: u32, lines: &str, order: &str, answer: u32, event: Option<u32>| {
        let history = format!("{HEAD}0 channel {capacity}\n{EVENTS}{lines}");
        let places = carried(Sequential, history.as_bytes(), event.map(|_| 0), event);
        stated(comparer, name, history.as_bytes(), sequential(order).as_bytes(), answer, places);
    };
    let lines = "0 0 0 push 5 -\n1 1 0 push 6 6\n2 0 0 pop - 5\n";
    assert_eq!(format!("{HEAD}0 channel 1\n{EVENTS}{lines}").into_bytes(), one_slot().text());
    say("one slot", 1, lines, "0,1,2", 0, None);
    say("two slots", 2, lines, "0,1,2", 16, Some(1));
    // The push of 6 first: it has the slot.
    say("one slot, 6 first", 1, lines, "1,0,2", 16, Some(1));
    // The pop between the two pushes frees the slot.
    say("one slot, the pop between", 1, "0 0 0 push 5 -\n1 1 0 push 6 -\n2 2 0 pop - 5\n", "0,2,1", 0, None);
    say("a refused push as taken", 1, &lines.replace("6 6", "6 -"), "0,1,2", 16, Some(1));
    say("a taken push as refused", 1, &lines.replace("5 -", "5 5"), "0,1,2", 16, Some(0));
    say("the value of another push back", 1, &lines.replace("6 6", "6 5"), "0,1,2", 16, Some(1));
    say("the refused value is popped", 1, &lines.replace("pop - 5", "pop - 6"), "0,1,2", 16, Some(2));
    say("both wrong: the first in the view", 1, "0 0 0 push 5 5\n1 1 0 push 6 -\n", "0,1", 16, Some(0));
    say("both wrong: the other order", 1, "0 0 0 push 5 5\n1 1 0 push 6 6\n", "1,0", 16, Some(1));
    say("a refused push lost", 1, &lines.replace("6 6", "6 ?"), "0,1,2", 0, None);
    say("a taken push lost", 1, &lines.replace("5 -", "5 ?"), "0,1,2", 0, None);
    say("all lost", 1, "0 0 0 push 5 ?\n1 1 0 push 6 ?\n2 0 0 pop - ?\n", "1,0,2", 0, None);
    let drained = "0 0 0 push 5 ?\n1 0 0 push 6 ?\n2 0 0 pop - 5\n3 0 0 pop - -\n";
    say("a lost push is refused all the same", 1, drained, "0,1,2,3", 0, None);
    say("a lost push goes in all the same", 2, drained, "0,1,2,3", 16, Some(3));
    let again = "0 0 0 push 5 -\n1 0 0 pop - 5\n2 0 0 push 6 -\n3 0 0 push 7 7\n4 0 0 peek - 6\n";
    say("a pop frees the slot", 1, again, "0,1,2,3,4", 0, None);
    say("a peek frees no slot", 1, &again.replace("pop", "peek"), "0,1,2,3,4", 16, Some(2));
    say("equal values are two packs", 2, "0 0 0 push 5 -\n1 0 0 push 5 -\n2 0 0 push 5 5\n", "0,1,2", 0, None);
    say("0 comes back as 0", 1, "0 0 0 push 0 -\n1 0 0 push 0 0\n", "0,1", 0, None);
    say("0 comes back as nothing", 1, "0 0 0 push 0 -\n1 0 0 push 0 -\n", "0,1", 16, Some(1));

    // As many pushes as a history can have, the first of them taken and the others refused.
    let pushes = |taken: usize| -> String {
        let answer = |e: usize| if e < taken { "-".to_string() } else { (200 + e).to_string() };
        (0..64).map(|e| format!("{e} {} 0 push {} {}\n", e % 8, 200 + e, answer(e))).collect()
    };
    let all = (0..64).map(|e| e.to_string()).collect::<Vec<_>>().join(",");
    say("9 slots", 9, &pushes(9), &all, 0, None);
    say("63 slots", 63, &pushes(63), &all, 0, None);
    say("64 slots", 64, &pushes(64), &all, 0, None);
    say("63 slots, the 64th push as taken", 63, &pushes(64), &all, 16, Some(63));
    say("64 slots, the 64th push as refused", 64, &pushes(63), &all, 16, Some(63));

    // The other criteria on two pushes for one slot.
    let two = |first: &str, second: &str| {
        format!("{HEAD}0 channel 1\n{EVENTS}0 0 0 push 5 {first}\n1 1 0 push 6 {second}\n").into_bytes()
    };
    let mut say = |name: &str, history: &[u8], criterion: Criterion, lists: &str, answer: u32, at: Option<(u32, u32)>| {
        let text = format!("criterion {}\n{lists}", criterion.word());
        let places = carried(criterion, history, at.map(|at| at.0), at.map(|at| at.1));
        stated(comparer, name, history, text.as_bytes(), answer, places);
    };
    let taken = two("-", "-");
    let refused = two("5", "6");
    let own_first = "view order\n0 0,1\n1 1,0\n";
    let own_last = "view order\n0 1,0\n1 0,1\n";
    say("both taken", &taken, Pram, own_first, 0, None);
    say("both taken, own last", &taken, Pram, own_last, 16, Some((0, 0)));
    say("both refused", &refused, Pram, own_last, 0, None);
    say("both refused, own first", &refused, Pram, own_first, 16, Some((0, 0)));
    for criterion in [Weak, Causal] {
        let apart = "event past\n0 -\n1 -\nview order\n0 0\n1 1\n";
        let behind = "event past\n0 -\n1 0\nview order\n0 0\n1 0,1\n";
        say("neither knows of the other", &taken, criterion, apart, 0, None);
        say("one knows of the other", &taken, criterion, behind, 16, Some((1, 1)));
        say("one refused", &two("-", "6"), criterion, behind, 0, None);
        say("refused by what it does not know of", &two("-", "6"), criterion, apart, 16, Some((1, 1)));
        say("both refused, no causal order has both", &refused, criterion, behind, 16, Some((0, 0)));
        let each_other = "event past\n0 1\n1 0\nview order\n0 1,0\n1 0,1\n";
        say("both refused, each in the other's past", &refused, criterion, each_other, 13, Some((NONE, 0)));
    }
    let apart = "event past\n0 -\n1 -\nview order\n0 0,1\n";
    let behind = "event past\n0 -\n1 0\nview order\n0 0,1\n";
    say("cut to one push each", &taken, Converge, apart, 0, None);
    say("not cut", &taken, Converge, behind, 16, Some((0, 1)));
    say("one refused", &two("-", "6"), Converge, behind, 0, None);
    say("refused by what is cut away", &two("-", "6"), Converge, apart, 16, Some((0, 1)));
    // Another process's push has no visible answer, but it takes the slot, or is refused, all the same.
    let third = |answer: &str| {
        let lines = "0 0 0 push 5 ?\n1 1 0 push 6 ?\n";
        format!("{HEAD}0 channel 1\n{EVENTS}{lines}2 2 0 pop - {answer}\n").into_bytes()
    };
    let views = "view order\n0 0,1,2\n1 0,1,2\n2 0,1,2\n";
    say("the first push has the slot", &third("5"), Pram, views, 0, None);
    say("the second push has not", &third("6"), Pram, views, 16, Some((2, 2)));
    let recorded = format!("{HEAD}0 channel 1\n{EVENTS}0 0 0 push 5 -\n1 1 0 push 6 -\n2 2 0 pop - 5\n3 2 0 pop - -\n");
    let views = "view order\n0 0,1,2,3\n1 1,0,2,3\n2 0,1,2,3\n";
    say("a push recorded as taken is refused in another view", recorded.as_bytes(), Pram, views, 0, None);
    let views = "view order\n0 0,1,2,3\n1 1,0,2,3\n2 0,2,1,3\n";
    say("and taken behind the pop", recorded.as_bytes(), Pram, views, 16, Some((2, 3)));
    let recorded = format!("{HEAD}0 channel 1\n{EVENTS}0 0 0 push 5 -\n1 1 0 push 6 6\n2 2 0 pop - 6\n");
    let views = "view order\n0 0,1,2\n1 0,1,2\n2 1,0,2\n";
    say("a push recorded as refused is taken in another view", recorded.as_bytes(), Pram, views, 0, None);
    // Each channel has its own slots, beside a queue that has no capacity.
    let lines = "0 0 0 push 4 -\n1 0 1 push 5 -\n2 0 2 push 6 -\n3 0 0 push 7 7\n4 0 1 push 8 -\n5 0 2 push 9 -\n";
    let more = "6 0 1 push 3 3\n7 0 0 pop - 4\n8 0 1 pop - 5\n9 0 2 pop - 6\n";
    let beside = format!("{HEAD}0 channel 1\n1 channel 2\n2 queue -\n{EVENTS}{lines}{more}");
    let whole = "view order\n0 0,1,2,3,4,5,6,7,8,9\n";
    say("two channels and a queue", beside.as_bytes(), Sequential, whole, 0, None);
    let turned = beside.replace("0 channel 1\n1 channel 2\n", "0 channel 2\n1 channel 1\n");
    say("their capacities changed about", turned.as_bytes(), Sequential, whole, 16, Some((0, 3)));
}

/// The lines that T-05 makes faults carry, with their numbers and where they start, counted by hand.
pub fn lines(comparer: &mut Comparer, _: &mut Random, _: usize) {
    let mut say = |history: &str, certificate: &str, answer: u32, places: [u32; 7], part: &str| {
        let [_, _, _, _, _, start, length] = places.map(|place| place as usize);
        assert_eq!(&history[start..start + length], part);
        stated(comparer, "the line of a fault", history.as_bytes(), certificate.as_bytes(), answer, places);
    };
    // Document 01's example.
    let q = format!("{HEAD}0 queue -\n{EVENTS}0 0 0 push 7 -\n1 1 0 pop - 7\n");
    let turned = "criterion sequential\nview order\n0 1,0\n";
    say(&q, turned, 16, [4, 1, 5, 0, 1, 80, 13], "1 1 0 pop - 7");
    say(&q, "criterion sequential\nview order\n0 0\n", 14, [4, 0, NONE, 0, NONE, 0, 0], "");
    say(&q, "criterion sequential\nview order\n0 0,1\n", 0, [4, 0, NONE, NONE, NONE, 0, 0], "");
    // The answer lost: only its pasts can be faulty.
    let lost = q.replace("pop - 7", "pop - ?");
    let itself = "criterion converge\nevent past\n0 -\n1 1\nview order\n0 1,0\n";
    say(&lost, turned, 0, [4, 0, NONE, NONE, NONE, 0, 0], "");
    say(&lost, itself, 12, [3, 1, 5, NONE, 1, 80, 13], "1 1 0 pop - ?");

    // W: 11, 13, 15 and 16.
    let w = format!("{HEAD}0 window 2\n{EVENTS}0 0 0 write 4 -\n1 0 0 read - 9,4\n2 1 0 write 9 -\n3 1 0 read - 4,9\n");
    let causal = "criterion causal\nevent past\n0 -\n1 0,2\n2 -\n3 0,2\nview order\n0 0\n1 2,0,1\n2 2\n3 0,2,3\n";
    say(&w, causal, 0, [2, 0, NONE, NONE, NONE, 0, 0], "");
    say(&w, &causal.replace("1 0,2\n", "1 2\n"), 11, [2, 1, 5, NONE, 1, 82, 16], "1 0 0 read - 9,4");
    let gap = causal.replace("1 0,2\n2 -\n", "1 0\n2 1\n");
    say(&w, &gap, 13, [2, 1, 6, NONE, 2, 99, 15], "2 1 0 write 9 -");
    say(&w, &causal.replace("3 0,2,3\n", "3 0,3,2\n"), 15, [2, 0, NONE, 3, NONE, 0, 0], "");
    say(&w, &causal.replace("3 0,2,3\n", "3 2,0,3\n"), 16, [2, 1, 7, 3, 3, 115, 16], "3 1 0 read - 4,9");
    // As strict: 20 at each view, and 16.
    let strict = "criterion strict\nevent past\n0 -\n1 0,2\n2 -\n3 0,2\nview order\n0 2,0,1,3\n1 0,2,3,1\n";
    say(&w, strict, 20, [5, 0, NONE, 0, NONE, 0, 0], "");
    let second = strict.replace("0 2,0,1,3\n", "0 0,2,1,3\n");
    say(&w, &second, 20, [5, 0, NONE, 1, NONE, 0, 0], "");
    let neither = second.replace("1 0,2,3,1\n", "1 2,0,3,1\n");
    say(&w, &neither, 16, [5, 1, 5, 0, 1, 82, 16], "1 0 0 read - 9,4");
    // R: 12.
    let writes = "0 0 0 write 3 -\n1 1 0 write 8 -\n";
    let r = format!("{HEAD}0 register -\n{EVENTS}{writes}2 2 0 read - 3\n3 2 0 read - 8\n4 2 0 read - 3\n");
    let pasts = "event past\n0 -\n1 -\n2 -\n3 0,1,2,3\n4 0,1,2,3\n";
    let weak = format!("criterion weak\n{pasts}view order\n0 -\n1 -\n2 -\n3 -\n4 -\n");
    say(&r, &weak, 12, [1, 1, 7, NONE, 3, 115, 14], "3 2 0 read - 8");
    // M has two objects. Its last event's line is the last of the text.
    let events = "0 0 0 write 5 -\n1 1 0 read - 5\n2 1 1 write 6 -\n3 2 1 read - 6\n4 2 0 read - 0\n";
    let m = format!("{HEAD}0 register -\n1 register -\n{EVENTS}{events}");
    let whole = "criterion sequential\nview order\n0 0,1,2,3,4\n";
    say(&m, whole, 16, [4, 1, 9, 0, 4, 143, 14], "4 2 0 read - 0");
    let pram = "criterion pram\nview order\n0 0,1,2,3,4\n1 1,0,2,3,4\n2 1,2,3,4,0\n";
    say(&m, pram, 16, [0, 1, 6, 1, 1, 97, 14], "1 1 0 read - 5");
    // As many objects and events as there can be.
    let objects: String = (0..16).map(|number| format!("{number} register -\n")).collect();
    let reads: String = (0..63).map(|e| format!("{e} {} 15 read - 0\n", e % 8)).collect();
    let full = format!("{HEAD}{objects}{EVENTS}{reads}63 7 15 read - 65535\n");
    let all = (0..64).map(|e| e.to_string()).collect::<Vec<_>>().join(",");
    let sequential = format!("criterion sequential\nview order\n0 {all}\n");
    say(&full, &sequential, 16, [4, 1, 82, 0, 63, 1_330, 20], "63 7 15 read - 65535");
}

const HEAD: &str = "object kind width\n";
const EVENTS: &str = "event process object op value answer\n";

/// A register that processes 2 and 5 write and process 5 reads.
const TWO_AND_FIVE: &str = "object kind width\n0 register -\nevent process object op value answer\n\
    0 2 0 write 3 -\n1 5 0 write 4 -\n2 5 0 read - 4\n";

/// History texts with the answer, the line and the part that document 01's words give.
fn history_cases() -> Vec<(String, u32, u32, String)> {
    let mut cases: Vec<(String, u32, u32, String)> = vec![];
    let mut add = |text: String, answer: u32, line: u32, part: &str| cases.push((text, answer, line, part.to_string()));
    add(String::new(), 2, 1, "");
    add("\n".into(), 2, 1, "");
    add("object kind width".into(), 2, 1, "object kind width");
    add(HEAD.into(), 2, 2, "");
    add(format!("{HEAD}\n"), 2, 2, "");
    add(format!("{HEAD}0 queue -\n"), 2, 3, "");
    add(format!("{HEAD}0 queue -\n{HEAD}"), 2, 3, "object kind width");
    add(format!("{HEAD}event process object op value answer"), 2, 2, "event process object op value answer");
    add(format!("{HEAD}{EVENTS}{EVENTS}"), 2, 3, "event process object op value answer");
    add(format!("{HEAD}{EVENTS}\n"), 2, 3, "");
    add(format!("{HEAD}{EVENTS}x"), 2, 3, "x");
    add(format!("{EVENTS}"), 2, 1, "event process object op value answer");
    add(format!("object kind width \n{EVENTS}"), 2, 1, "object kind width ");
    add(format!("object kind width\r\n{EVENTS}"), 2, 1, "object kind width\r");
    // The lines of objects.
    let objects: [(&str, u32); 66] = [
        ("0 queue -", 0), ("0 register -", 0), ("0 stack -", 0), ("0 window 1", 0), ("0 window 8", 0),
        ("0 window -", 4), ("0 queue 1", 4), ("0 register 8", 4), ("0 stack 3", 4),
        ("0 queue 0", 3), ("0 queue 9", 3), ("0 window 0", 3), ("0 window 9", 3), ("0 window 256", 3), ("0 window 4294967297", 3),
        ("0 window 18446744073709551617", 3), ("1 queue -", 2), ("00 queue -", 2), ("- queue -", 2), ("0 Queue -", 2),
        ("0 queues -", 2), ("0 window 01", 2), ("0 window +1", 2), ("0 window", 2), ("0 window 1 ", 2), (" 0 window 1", 2),
        ("0  window 1", 2), ("0 window 1 1", 2), ("0 window --", 2), ("0 window 09", 2), ("0 queue 99x", 2), ("", 2),
        ("0 0 0 push 7 -", 2),
        // `?` is an answer alone.
        ("0 window ?", 2), ("0 queue ?", 2), ("? queue -", 2), ("0 ? -", 2),
        // A channel's capacity is 1 to 64; the limit on any other kind stays 8.
        ("0 channel 1", 0), ("0 channel 8", 0), ("0 channel 9", 0), ("0 channel 10", 0), ("0 channel 63", 0),
        ("0 channel 64", 0), ("0 channel 65", 3), ("0 channel 0", 3), ("0 channel 100", 3), ("0 channel 256", 3),
        ("0 channel 257", 3), ("0 channel 65537", 3), ("0 channel 4294967297", 3), ("0 channel -", 4),
        ("0 queue 8", 4), ("0 stack 8", 4), ("0 stack 9", 3), ("0 register 9", 3), ("0 register 64", 3),
        ("0 queue 64", 3), ("0 stack 64", 3), ("0 window 10", 3), ("0 window 64", 3),
        ("0 channel 064", 2), ("0 channel 64,", 2), ("0 channel", 2), ("0 channels 1", 2), ("0 Channel 1", 2),
        ("0 channel ?", 2),
    ];
    for (line, answer) in objects {
        let text = format!("{HEAD}{line}\n{EVENTS}");
        add(text, answer, if answer == 0 { NONE } else { 2 }, if answer == 0 { "" } else { line });
    }
    // The 17th object, alone and with other faults.
    let many: String = (0..16).map(|number| format!("{number} queue -\n")).collect();
    add(format!("{HEAD}{many}{EVENTS}"), 0, NONE, "");
    for (line, answer) in [
        ("16 queue -", 3), ("16 queue 1", 3), ("16 queue", 2), ("17 queue -", 2), ("15 queue -", 2), ("16 q -", 2),
        ("16 channel 64", 3), ("16 channel -", 3), ("16 channel", 2), ("17 channel 1", 2),
    ] {
        add(format!("{HEAD}{many}{line}\n{EVENTS}"), answer, 18, line);
    }
    // The lines of events: object 0 a channel, alone. Any one value may be the answer of its push.
    let of_channels = [
        ("0 0 0 push 7 -", 0), ("0 0 0 push 7 7", 0), ("0 0 0 push 7 6", 0), ("0 0 0 push 0 65535", 0),
        ("0 0 0 push 7 ?", 0), ("0 0 0 pop - -", 0), ("0 0 0 pop - 7", 0), ("0 0 0 pop - ?", 0),
        ("0 0 0 peek - -", 0), ("0 0 0 peek - 7", 0), ("0 0 0 peek - ?", 0),
        ("0 0 0 push 7 7,7", 5), ("0 0 0 push 7 7,6,5", 5), ("0 0 0 pop - 7,7", 5), ("0 0 0 peek - 1,2", 5),
        ("0 0 0 write 7 -", 4), ("0 0 0 write 7 ?", 4), ("0 0 0 read - 7", 4), ("0 0 0 read - -", 4),
        ("0 0 0 read - ?", 4), ("0 0 0 push - -", 4), ("0 0 0 push - 7", 4), ("0 0 0 pop 7 7", 4),
        ("0 0 0 peek 7 -", 4), ("0 0 0 write 7 7", 4), ("0 0 0 read - 7,7", 4),
        ("0 0 0 push 7 65536", 3), ("0 0 0 push 65536 -", 3), ("0 0 0 push 7 7,65536", 3), ("0 0 1 push 7 7", 3),
        ("0 8 0 push 7 7", 3), ("0 0 0 push 7 07", 2), ("0 0 0 push 7 7,", 2), ("0 0 0 push 7 7,?", 2),
        ("0 0 0 push 7 -,7", 2), ("0 0 0 push 7", 2),
    ];
    for ((line, answer), capacity) in of_channels.into_iter().zip([1, 64, 2, 8].into_iter().cycle()) {
        let text = format!("{HEAD}0 channel {capacity}\n{EVENTS}{line}\n");
        add(text, answer, if answer == 0 { NONE } else { 4 }, if answer == 0 { "" } else { line });
    }
    // A push onto a queue or a stack answers nothing, beside a channel too.
    for (line, answer) in [
        ("0 0 0 push 7 7", 5), ("0 0 1 push 7 7", 5), ("0 0 2 push 7 7", 0), ("0 0 0 push 7 -", 0),
        ("0 0 3 push 7 7", 3),
    ] {
        let text = format!("{HEAD}0 queue -\n1 stack -\n2 channel 1\n{EVENTS}{line}\n");
        add(text, answer, if answer == 0 { NONE } else { 6 }, if answer == 0 { "" } else { line });
    }
    // The lines of events: object 0 a register, 1 a queue, 2 a stack, 3 a window of width 2.
    let four = "0 register -\n1 queue -\n2 stack -\n3 window 2\n";
    let events: [(&str, u32); 110] = [
        ("0 0 0 write 7 -", 0), ("0 0 0 read - 7", 0), ("0 0 1 push 7 -", 0), ("0 0 1 pop - 7", 0), ("0 0 1 pop - -", 0),
        ("0 0 1 peek - -", 0), ("0 7 2 peek - 65535", 0), ("0 0 2 push 65535 -", 0), ("0 0 3 write 0 -", 0), ("0 0 3 read - 0,0", 0),
        // A window of width k answers 0 to k values.
        ("0 0 3 read - 1", 0), ("0 0 3 read - -", 0),
        // 5: a length that the op can't give.
        ("0 0 0 write 7 7", 5), ("0 0 0 read - -", 5), ("0 0 0 read - 7,7", 5), ("0 0 1 push 7 1", 5), ("0 0 1 pop - 7,7", 5),
        ("0 0 2 peek - 1,2", 5), ("0 0 3 read - 1,2,3", 5), ("0 0 3 write 1 1,1", 5), ("0 0 3 write 1 1", 5),
        // 4: an op that the kind lacks, a value where `-` belongs, or the reverse.
        ("0 0 0 push 7 -", 4), ("0 0 0 pop - -", 4), ("0 0 1 write 7 -", 4), ("0 0 1 read - 7", 4), ("0 0 3 peek - 1", 4),
        ("0 0 0 write - -", 4), ("0 0 0 read 7 7", 4), ("0 0 1 push - -", 4), ("0 0 1 pop 7 7", 4), ("0 0 1 peek 0 -", 4),
        ("0 0 0 read 7 -", 4), ("0 0 0 push 7 1,2,3", 4),
        // 3: over a limit, or an undeclared object.
        ("0 8 0 write 7 -", 3), ("0 0 4 write 7 -", 3), ("0 0 0 write 65536 -", 3), ("0 0 0 read - 65536", 3),
        ("0 0 3 read - 0,65536", 3), ("0 0 0 read 65536 7", 3), ("0 0 9 read 7 -", 3), ("0 0 0 push 65536 1", 3),
        ("0 0 1 push 7 65536", 3), ("0 256 0 write 7 -", 3), ("0 4294967296 0 write 7 -", 3), ("0 0 4294967296 write 7 -", 3),
        ("0 0 0 write 18446744073709551616 -", 3),
        // 2: layout.
        ("1 0 0 write 7 -", 2), ("0 - 0 write 7 -", 2), ("0 0 - write 7 -", 2), ("0 0 0 writes 7 -", 2), ("0 0 0 Write 7 -", 2),
        ("0 0 0 write 07 -", 2), ("0 0 0 write 7", 2), ("0 0 0 write 7 - -", 2), ("0 0 0 write 7 - ", 2), ("0 0 0 write  7 -", 2),
        ("0 8 9 read 65536 1,,2", 2), ("0 0 0 read - 7,", 2), ("0 0 0 read - ,7", 2), ("0 0 0 read - 7,-", 2), ("0 0 0 read - 00", 2),
        ("0 0 0 read - +7", 2), ("64 0 0 write 7 -", 2),
        // A lost answer, of every op of every kind: 5 doesn't apply.
        ("0 0 0 write 7 ?", 0), ("0 0 0 read - ?", 0), ("0 0 1 push 7 ?", 0), ("0 0 1 pop - ?", 0),
        ("0 0 1 peek - ?", 0), ("0 7 2 push 65535 ?", 0), ("0 0 2 pop - ?", 0), ("0 0 2 peek - ?", 0),
        ("0 0 3 write 0 ?", 0), ("0 0 3 read - ?", 0),
        // 4, 3 and 2 apply as to other answers.
        ("0 0 0 pop - ?", 4), ("0 0 0 push 7 ?", 4), ("0 0 1 write 7 ?", 4), ("0 0 2 read - ?", 4),
        ("0 0 3 peek - ?", 4), ("0 0 0 write - ?", 4), ("0 0 0 read 7 ?", 4), ("0 0 1 push - ?", 4),
        ("0 0 1 pop 7 ?", 4), ("0 0 2 peek 0 ?", 4),
        ("0 8 0 write 7 ?", 3), ("0 0 4 write 7 ?", 3), ("0 0 0 write 65536 ?", 3), ("0 0 0 read 65536 ?", 3),
        ("0 8 0 pop - ?", 3), ("1 0 0 write 7 ?", 2), ("0 0 0 writes 7 ?", 2), ("0 0 0 write 07 ?", 2),
        // 2: `?` in a list, twice, with other bytes, or in another field.
        ("0 0 3 read - ?,7", 2), ("0 0 3 read - 7,?", 2), ("0 0 3 read - ?,?", 2), ("0 0 0 read - ??", 2),
        ("0 0 1 pop - -?", 2), ("0 0 1 pop - ?-", 2), ("0 0 1 pop - ?7", 2), ("0 0 1 pop - 7?", 2),
        ("0 0 1 pop - ?,", 2), ("0 0 1 pop - ,?", 2), ("0 0 1 pop -  ?", 2), ("0 0 1 pop - ? ", 2),
        ("0 0 1 pop - ?\r", 2), ("0 0 1 pop - ? ?", 2), ("0 0 1 pop ?", 2), ("0 0 1 pop ? ?", 2),
        ("0 0 1 push ? -", 2), ("0 0 1 ? 7 -", 2), ("? 0 1 pop - ?", 2),
    ];
    for (line, answer) in events {
        let text = format!("{HEAD}{four}{EVENTS}{line}\n");
        add(text, answer, if answer == 0 { NONE } else { 7 }, if answer == 0 { "" } else { line });
    }
    // A good last line without its line feed, and one with another fault; a faulty line above it comes first.
    add(format!("{HEAD}{four}{EVENTS}0 0 0 write 7 -"), 2, 7, "0 0 0 write 7 -");
    add(format!("{HEAD}{four}{EVENTS}0 8 0 write 7 -"), 2, 7, "0 8 0 write 7 -");
    add(format!("{HEAD}{four}{EVENTS}0 8 0 write 7 -\n1 0 0"), 3, 7, "0 8 0 write 7 -");
    add(format!("{HEAD}{four}{EVENTS}0 0 0 write 7 ?"), 2, 7, "0 0 0 write 7 ?");
    add(format!("{HEAD}{four}{EVENTS}0 0 0 write 7 ?\n1 0 0 read - 7,7\n"), 5, 8, "1 0 0 read - 7,7");
    add(format!("{HEAD}{four}{EVENTS}0 0 0 write 7 ?\n1 0 0 read - ?\n2 0 0 read - ??\n"), 2, 9, "2 0 0 read - ??");
    // The 65th event.
    let full: String = (0..64).map(|number| format!("{number} 0 0 write 7 -\n")).collect();
    add(format!("{HEAD}{four}{EVENTS}{full}"), 0, NONE, "");
    for (line, answer) in [
        ("64 0 0 write 7 -", 3), ("64 0 0 pop 7 1,1", 3), ("64 0 0 write 7", 2), ("65 0 0 write 7 -", 2),
        ("63 0 0 write 7 -", 2), ("64 0 0 write 7 ?", 3), ("64 0 0 pop 7 ?", 3), ("64 0 0 write 7 ?,7", 2),
        ("65 0 0 write 7 ?", 2),
    ] {
        for full in [full.clone(), full.replace(" -", " ?")] {
            add(format!("{HEAD}{four}{EVENTS}{full}{line}\n"), answer, 71, line);
        }
    }
    add(format!("{HEAD}{four}{EVENTS}{}", full.replace(" -", " ?")), 0, NONE, "");
    // Too long, whatever else.
    add("x".repeat(16_384), 2, 1, &"x".repeat(16_384));
    add("x".repeat(16_385), 1, 0, "");
    add(format!("{HEAD}{four}{EVENTS}0 0 0 read - {}\n", ["7"; 8134].join(",")), 5, 7, &format!("0 0 0 read - {}", ["7"; 8134].join(",")));
    add(format!("{HEAD}{four}{EVENTS}0 0 0 read - 7{}\n", "0".repeat(16_000)), 3, 7, &format!("0 0 0 read - 7{}", "0".repeat(16_000)));
    let many = format!("0 0 0 read - {}", "?".repeat(16_000));
    add(format!("{HEAD}{four}{EVENTS}{many}\n"), 2, 7, &many);
    cases
}

/// Certificate texts of a history of three events by processes 2, 5 and 5, with the answer, line and part.
fn certificate_cases() -> Vec<(String, u32, u32, String)> {
    let mut cases: Vec<(String, u32, u32, String)> = vec![];
    let mut add = |text: &str, answer: u32, line: u32, part: &str| cases.push((text.to_string(), answer, line, part.to_string()));
    add("", 2, 1, "");
    add("\n", 2, 1, "");
    add("criterion", 2, 1, "criterion");
    add("criterion sequential", 2, 1, "criterion sequential");
    add("criterion strong\n", 2, 1, "criterion strong");
    add("criterion Weak\n", 2, 1, "criterion Weak");
    add("criterion  weak\n", 2, 1, "criterion  weak");
    add("criterion sequential\n", 2, 2, "");
    add("criterion sequential\nevent past\n", 2, 2, "event past");
    add("criterion sequential\nview order\n", 2, 3, "");
    add("criterion sequential\nview order\n0 0,1,2", 2, 3, "0 0,1,2");
    add("criterion sequential\nview order\n0 0,1,2\n", 0, NONE, "");
    add("criterion sequential\nview order\n0 0,1,2\n\n", 2, 4, "");
    add("criterion sequential\nview order\n0 0,1,2\n1 0,1,2\n", 2, 4, "1 0,1,2");
    add("criterion sequential\nview order\n0 0,1,2\nx", 2, 4, "x");
    add("criterion sequential\nview order\n1 0,1,2\n", 2, 3, "1 0,1,2");
    add("criterion sequential\nview order\n0 0,1,3\n", 3, 3, "0 0,1,3");
    add("criterion sequential\nview order\n0 0,1,2,2\n", 3, 3, "0 0,1,2,2");
    add("criterion sequential\nview order\n0 0,1,2,\n", 2, 3, "0 0,1,2,");
    add("criterion sequential\nview order\n0 18446744073709551616\n", 3, 3, "0 18446744073709551616");
    add("criterion sequential\nview order\n0 4294967296,1,2\n", 3, 3, "0 4294967296,1,2");
    add("criterion sequential\nview order\n0 -,1\n", 2, 3, "0 -,1");
    add("criterion sequential\nview order\n0 ?\n", 2, 3, "0 ?");
    add("criterion sequential\nview order\n0 0,?,2\n", 2, 3, "0 0,?,2");
    add("criterion ?\n", 2, 1, "criterion ?");
    add("criterion sequential\nview order\n0\n", 2, 3, "0");
    add("criterion sequential\nview order\n0 \n", 2, 3, "0 ");
    add("criterion pram\nview order\n2 0,1,2\n5 0,1,2\n", 0, NONE, "");
    add("criterion pram\nview order\n0 0,1,2\n1 0,1,2\n", 2, 3, "0 0,1,2");
    add("criterion pram\nview order\n5 0,1,2\n2 0,1,2\n", 2, 3, "5 0,1,2");
    add("criterion pram\nview order\n2 0,1,2\n", 2, 4, "");
    add("criterion pram\nview order\n2 0,1,2\n5 0,1,2\n6 0,1,2\n", 2, 5, "6 0,1,2");
    let weak = "criterion weak\nevent past\n0 -\n1 -\n2 1\nview order\n0 0\n1 1\n2 1,2\n";
    add(weak, 0, NONE, "");
    add(&weak.replace("2 1\n", "2 1,0\n"), 6, 5, "2 1,0");
    add(&weak.replace("2 1\n", "2 ?\n"), 2, 5, "2 ?");
    add(&weak.replace("2 1\n", "2 1,1\n"), 6, 5, "2 1,1");
    add(&weak.replace("2 1\n", "2 1,0,3\n"), 3, 5, "2 1,0,3");
    add(&weak.replace("2 1\n", "2 0,1,2,2\n"), 3, 5, "2 0,1,2,2");
    add(&weak.replace("2 1\n", "2 1,0,4,x\n"), 2, 5, "2 1,0,4,x");
    add(&weak.replace("2 1\n", ""), 2, 5, "view order");
    add(&weak.replace("2 1\n", "2 1\n3 -\n"), 2, 6, "3 -");
    add(&weak.replace("2 1,2\n", ""), 2, 9, "");
    add(&weak.replace("0 0\n", "0 3\n").replace("2 1\n", "2 1,0\n"), 6, 5, "2 1,0");
    add(&weak.replace("event past\n", ""), 2, 2, "0 -");
    add(&weak.replace("weak", "pram"), 2, 2, "event past");
    add("criterion converge\nevent past\n0 -\n1 -\n2 1\nview order\n0 0,1,2\n", 0, NONE, "");
    // Strict has pasts, and pram's views.
    let strict = "criterion strict\nevent past\n0 -\n1 -\n2 1\nview order\n2 0,1,2\n5 1,2,0\n";
    add(strict, 0, NONE, "");
    add(&strict.replace("5 1,2,0\n", ""), 2, 8, "");
    add(&strict.replace("5 1,2,0\n", "5 1,2,0\n6 0,1,2\n"), 2, 9, "6 0,1,2");
    add(&strict.replace("5 1,2,0\n", "5 1,2,3\n"), 3, 8, "5 1,2,3");
    add(&strict.replace("5 1,2,0\n", "5 1,2,0,0\n"), 3, 8, "5 1,2,0,0");
    add(&strict.replace("5 1,2,0\n", "1 1,2,0\n"), 2, 8, "1 1,2,0");
    add(&strict.replace("2 0,1,2\n", "0 0,1,2\n"), 2, 7, "0 0,1,2");
    add(&strict.replace("2 1\n", "2 1,0\n"), 6, 5, "2 1,0");
    add(&strict.replace("2 1\n", ""), 2, 5, "view order");
    add(&strict.replace("event past\n", ""), 2, 2, "0 -");
    add(&strict.replace("strict", "pram"), 2, 2, "event past");
    add(&strict.replace("strict", "stric"), 2, 1, "criterion stric");
    add(&strict.replace("strict", "Strict"), 2, 1, "criterion Strict");
    add(&strict.replace("strict", "stricter"), 2, 1, "criterion stricter");
    add(&weak.replace("weak", "strict"), 2, 7, "0 0");
    add("criterion strict\nview order\n2 0,1,2\n5 1,2,0\n", 2, 2, "view order");
    add(&"x".repeat(32_768), 2, 1, &"x".repeat(32_768));
    add(&"x".repeat(32_769), 1, 0, "");
    cases
}

/// The places of a stated reading refusal; the part is found in the text.
fn refused(text: &str, which: u32, line: u32, part: &str) -> [u32; 7] {
    let start: usize = if part.is_empty() {
        0
    } else {
        text.split_inclusive('\n').take(line as usize - 1).map(str::len).sum()
    };
    assert!(part.is_empty() || text[start..].starts_with(part));
    [NONE, which, line, NONE, NONE, start as u32, part.len() as u32]
}

/// Texts whose fault document 01's words name.
pub fn texts(comparer: &mut Comparer, _: &mut Random, _: usize) {
    for (text, answer, line, part) in history_cases() {
        // A readable history is checked with a certificate that names no criterion, so that the refusal is the certificate's.
        let places = if answer == 0 { [NONE, 2, 1, NONE, NONE, 0, 4] } else { refused(&text, 1, line, &part) };
        let answer = if answer == 0 { 2 } else { answer };
        stated(comparer, "a history text", text.as_bytes(), b"none\n", answer, places);
        // The history's refusals come first, even when the certificate is too long.
        let too_long = vec![b'x'; 32_769];
        let (answer, places) = if places[1] == 2 { (1, [NONE, 2, 0, NONE, NONE, 0, 0]) } else { (answer, places) };
        stated(comparer, "a history text", text.as_bytes(), &too_long, answer, places);
    }
    for (text, answer, line, part) in certificate_cases() {
        let verdict = Document01.check_texts(TWO_AND_FIVE.as_bytes(), text.as_bytes());
        let places = if answer == 0 { verdict.places() } else { refused(&text, 2, line, &part) };
        stated(comparer, "a certificate text", TWO_AND_FIVE.as_bytes(), text.as_bytes(), answer, places);
    }
    // A history with no events: views and pasts there are none of, but for the one view 0.
    let none = format!("{HEAD}{EVENTS}");
    for (text, answer, line, part) in [
        ("criterion sequential\nview order\n0 -\n", 0, 0, ""),
        ("criterion converge\nevent past\nview order\n0 -\n", 0, 0, ""),
        ("criterion weak\nevent past\nview order\n", 0, 0, ""),
        ("criterion causal\nevent past\nview order\n", 0, 0, ""),
        ("criterion pram\nview order\n", 0, 0, ""),
        ("criterion strict\nevent past\nview order\n", 0, 0, ""),
        ("criterion strict\nevent past\nview order\n0 -\n", 2, 4, "0 -"),
        ("criterion strict\nevent past\n0 -\nview order\n", 2, 3, "0 -"),
        ("criterion strict\nevent past\n", 2, 3, ""),
        ("criterion strict\nview order\n", 2, 2, "view order"),
        ("criterion pram\nview order\n0 -\n", 2, 3, "0 -"),
        ("criterion weak\nevent past\nview order\n0 -\n", 2, 4, "0 -"),
        ("criterion weak\nevent past\n0 -\nview order\n", 2, 3, "0 -"),
        ("criterion sequential\nview order\n", 2, 3, ""),
        ("criterion sequential\nview order\n0 0\n", 3, 3, "0 0"),
    ] {
        let verdict = Document01.check_texts(none.as_bytes(), text.as_bytes());
        let places = if answer == 0 { verdict.places() } else { refused(text, 2, line, part) };
        stated(comparer, "a certificate of no events", none.as_bytes(), text.as_bytes(), answer, places);
    }
}

/// A weakening is added by its history, certificate text, wanted number, and the answer or the text.
type Adds<'a> = dyn FnMut(&History, &str, u32, Result<&str, u32>) + 'a;

/// Weakenings from strict, written down by hand.
fn strict_weakenings(add: &mut Adds) {
    // The stack: each event's view is its process's view up to and with it.
    let pasts = "event past\n0 -\n1 0\n2 0,1\n3 0\n4 0,3\n5 0,3,4\n6 0\n7 0,3,4,6\n";
    let views = "view order\n0 0,1,2,3,4,5,6,7\n1 0,3,4,5,6,7,1,2\n2 0,6,3,4,7,5,1,2\n";
    let parts = "view order\n0 0\n1 0,1\n2 0,1,2\n3 0,3\n4 0,3,4\n5 0,3,4,5\n6 0,6\n7 0,6,3,4,7\n";
    let strict = format!("criterion strict\n{pasts}{views}");
    add(&stack(), &strict, 0, Ok(&format!("criterion pram\n{views}")));
    add(&stack(), &strict, 1, Ok(&format!("criterion weak\n{pasts}{parts}")));
    add(&stack(), &strict, 2, Ok(&format!("criterion causal\n{pasts}{parts}")));
    add(&stack(), &strict, 5, Ok(&strict));
    for wanted in [3, 4, 6, 7, 255, 261, NONE] {
        add(&stack(), &strict, wanted, Err(17));
    }
    // Processes 2 and 5: views are found by their process's number, which is no place of a list and no event's number.
    let three = HistoryRules::read_history(&Document01, TWO_AND_FIVE.as_bytes()).expect("it reads");
    let pasts = "event past\n0 -\n1 -\n2 1\n";
    let strict = format!("criterion strict\n{pasts}view order\n2 0,1,2\n5 1,2,0\n");
    add(&three, &strict, 0, Ok("criterion pram\nview order\n2 0,1,2\n5 1,2,0\n"));
    add(&three, &strict, 1, Ok(&format!("criterion weak\n{pasts}view order\n0 0\n1 1\n2 1,2\n")));
    add(&three, &strict, 2, Ok(&format!("criterion causal\n{pasts}view order\n0 0\n1 1\n2 1,2\n")));
    add(&three, &strict, 5, Ok(&strict));
    // 20: W's writes. To converge and sequential there is no pair.
    let pasts = "event past\n0 -\n1 0,2\n2 -\n3 0,2\n";
    let outside = format!("criterion strict\n{pasts}view order\n0 2,0,1,3\n1 0,2,3,1\n");
    // 16 at view 0, and 20 at view 1: 20 comes first. 15 comes before both.
    let both = format!("criterion strict\n{pasts}view order\n0 0,2,1,3\n1 0,2,3,1\n");
    let against = format!("criterion strict\n{pasts}view order\n0 2,0,1,3\n1 0,3,2,1\n");
    for (wanted, pair) in [(0, true), (1, true), (2, true), (3, false), (4, false), (5, true), (6, false)] {
        add(&w(), &outside, wanted, Err(if pair { 20 } else { 17 }));
        add(&w(), &both, wanted, Err(if pair { 20 } else { 17 }));
        add(&w(), &against, wanted, Err(if pair { 15 } else { 17 }));
    }
}

/// Weakenings written down by hand: history, certificate text, wanted, and the answer or the text.
fn weakening_cases() -> Vec<(History, String, u32, Result<String, u32>)> {
    use Criterion::{Causal, Converge, Pram, Sequential, Strict, Weak};
    let mut cases = vec![];
    let mut add = |history: &History, certificate: &str, wanted: u32, expected: Result<&str, u32>| {
        cases.push((history.clone(), certificate.to_string(), wanted, expected.map(str::to_string)));
    };
    let sequential = "criterion sequential\nview order\n0 0,1\n";
    let both = "event past\n0 -\n1 0\nview order\n";
    add(&q(), sequential, 0, Ok("criterion pram\nview order\n0 0,1\n1 0,1\n"));
    add(&q(), sequential, 1, Ok(&format!("criterion weak\n{both}0 0\n1 0,1\n")));
    add(&q(), sequential, 2, Ok(&format!("criterion causal\n{both}0 0\n1 0,1\n")));
    add(&q(), sequential, 3, Ok(&format!("criterion converge\n{both}0 0,1\n")));
    add(&q(), sequential, 4, Ok(sequential));
    add(&q(), sequential, 5, Ok(&format!("criterion strict\n{both}0 0,1\n1 0,1\n")));
    // past(e) rises, whatever the order is.
    let mut three = q();
    three.events.swap(0, 1);
    three.events[0].process = 5;
    three.events.push(crate::samples::event(2, 0, crate::objects::Op::Peek, None, &[]));
    let order = "criterion sequential\nview order\n0 2,1,0\n";
    let pasts = "event past\n0 1,2\n1 2\n2 -\nview order\n";
    add(&three, order, 0, Ok("criterion pram\nview order\n0 2,1,0\n2 2,1,0\n5 2,1,0\n"));
    add(&three, order, 1, Ok(&format!("criterion weak\n{pasts}0 2,1,0\n1 2,1\n2 2\n")));
    add(&three, order, 2, Ok(&format!("criterion causal\n{pasts}0 2,1,0\n1 2,1\n2 2\n")));
    add(&three, order, 3, Ok(&format!("criterion converge\n{pasts}0 2,1,0\n")));
    add(&three, order, 4, Ok(order));
    add(&three, order, 5, Ok(&format!("criterion strict\n{pasts}0 2,1,0\n2 2,1,0\n5 2,1,0\n")));
    // W: the view of the process's last event, then all other events rising.
    let lists = "event past\n0 -\n1 0,2\n2 -\n3 0,2\nview order\n0 0\n1 2,0,1\n2 2\n3 0,2,3\n";
    let causal = format!("criterion causal\n{lists}");
    add(&w(), &causal, 0, Ok("criterion pram\nview order\n0 2,0,1,3\n1 0,2,3,1\n"));
    add(&w(), &causal, 1, Ok(&format!("criterion weak\n{lists}")));
    add(&w(), &causal, 2, Ok(&causal));
    // C: cut to past(e) and e.
    let past = "event past\n0 -\n1 -\n2 1\n3 0,1,2\nview order\n";
    let converge = format!("criterion converge\n{past}0 0,1,2,3\n");
    add(&c(), &converge, 1, Ok(&format!("criterion weak\n{past}0 0\n1 1\n2 1,2\n3 0,1,2,3\n")));
    add(&c(), &converge, 3, Ok(&converge));
    let none = History::default();
    let empty = "criterion sequential\nview order\n0 -\n";
    add(&none, empty, 0, Ok("criterion pram\nview order\n"));
    add(&none, empty, 1, Ok("criterion weak\nevent past\nview order\n"));
    add(&none, empty, 2, Ok("criterion causal\nevent past\nview order\n"));
    add(&none, empty, 3, Ok("criterion converge\nevent past\nview order\n0 -\n"));
    add(&none, empty, 4, Ok(empty));
    let strict = "criterion strict\nevent past\nview order\n";
    add(&none, empty, 5, Ok(strict));
    for criterion in [Pram, Weak, Causal, Strict] {
        let pasts = if criterion == Pram { "" } else { "event past\n" };
        add(&none, strict, criterion.number(), Ok(&format!("criterion {}\n{pasts}view order\n", criterion.word())));
    }
    // Lost answers: the same texts are made, where the check accepts what it would refuse else.
    let lost = with_lost(q(), &[1]);
    let pasts = "event past\n0 1\n1 -\nview order\n";
    let turned = "criterion sequential\nview order\n0 1,0\n";
    add(&lost, turned, 0, Ok("criterion pram\nview order\n0 1,0\n1 1,0\n"));
    add(&lost, turned, 1, Ok(&format!("criterion weak\n{pasts}0 1,0\n1 1\n")));
    add(&lost, turned, 2, Ok(&format!("criterion causal\n{pasts}0 1,0\n1 1\n")));
    add(&lost, turned, 3, Ok(&format!("criterion converge\n{pasts}0 1,0\n")));
    add(&lost, turned, 4, Ok(turned));
    add(&lost, turned, 5, Ok(&format!("criterion strict\n{pasts}0 1,0\n1 1,0\n")));
    add(&lost, "criterion sequential\nview order\n0 1\n", 0, Err(14));
    add(&with_lost(q(), &[0]), turned, 0, Err(16));
    let other = causal.replace("1 2,0,1\n", "1 0,2,1\n");
    add(&w(), &other, 0, Err(16));
    add(&with_lost(w(), &[1]), &other, 0, Ok("criterion pram\nview order\n0 0,2,1,3\n1 0,2,3,1\n"));
    add(&with_lost(w(), &[1]), &other, 1, Ok(&other.replace("causal", "weak")));
    add(&with_lost(c(), &[2]), &converge, 1, Ok(&format!("criterion weak\n{past}0 0\n1 1\n2 1,2\n3 0,1,2,3\n")));
    // Channels: a refused push stays refused behind what was before it.
    let order = "criterion sequential\nview order\n0 0,1,2\n";
    let pasts = "event past\n0 -\n1 0\n2 0,1\nview order\n";
    add(&one_slot(), order, 0, Ok("criterion pram\nview order\n0 0,1,2\n1 0,1,2\n"));
    add(&one_slot(), order, 1, Ok(&format!("criterion weak\n{pasts}0 0\n1 0,1\n2 0,1,2\n")));
    add(&one_slot(), order, 2, Ok(&format!("criterion causal\n{pasts}0 0\n1 0,1\n2 0,1,2\n")));
    add(&one_slot(), order, 3, Ok(&format!("criterion converge\n{pasts}0 0,1,2\n")));
    add(&one_slot(), order, 4, Ok(order));
    add(&one_slot(), order, 5, Ok(&format!("criterion strict\n{pasts}0 0,1,2\n1 0,1,2\n")));
    add(&one_slot(), "criterion sequential\nview order\n0 1,0,2\n", 0, Err(16));
    // Neither push knows of the other: each has the one slot in its own view, and so it is in the weakened ones.
    let mut both = one_slot();
    both.events.truncate(2);
    both.events[1].answer = Some(vec![]);
    let apart = "event past\n0 -\n1 -\nview order\n0 0\n1 1\n";
    add(&both, &format!("criterion causal\n{apart}"), 0, Ok("criterion pram\nview order\n0 0,1\n1 1,0\n"));
    add(&both, &format!("criterion causal\n{apart}"), 1, Ok(&format!("criterion weak\n{apart}")));
    let cut = "criterion converge\nevent past\n0 -\n1 -\nview order\n0 1,0\n";
    add(&both, cut, 1, Ok(&format!("criterion weak\n{apart}")));
    add(&both, cut, 0, Err(17));
    strict_weakenings(&mut add);
    // 17: not a pair, and none is wanted by a number past 5.
    let weak = format!("criterion weak\n{lists}");
    let pram = "criterion pram\nview order\n0 0,1\n1 0,1\n";
    for wanted in [1, 2, 3, 4, 5, 6, 256, NONE] {
        add(&q(), pram, wanted, Err(17));
    }
    for wanted in [0, 2, 3, 4, 5] {
        add(&w(), &weak, wanted, Err(17));
    }
    for (criterion, text) in [(Causal, &causal), (Converge, &converge)] {
        for other in [Pram, Causal, Converge, Sequential, Strict] {
            if other != criterion && (criterion, other) != (Causal, Pram) {
                let history = if criterion == Causal { w() } else { c() };
                add(&history, text, other.number(), Err(17));
            }
        }
    }
    add(&w(), &weak, Weak.number(), Ok(&weak));
    // 1: too long, whatever is wanted.
    for wanted in [0, 4, 5, 6, NONE] {
        add(&q(), &"x".repeat(32_769), wanted, Err(1));
        add(&q(), &"x".repeat(32_768), wanted, Err(2));
    }
    // 17 comes before 11 to 16 and 20, and these before 18; reading refusals come first.
    let turned = "criterion sequential\nview order\n0 1,0\n";
    for wanted in 0..6 {
        add(&q(), turned, wanted, Err(16));
        add(&q(), "criterion sequential\nview order\n0 0\n", wanted, Err(14));
        add(&q(), "criterion sequential\nview order\n0 0,2\n", wanted, Err(3));
    }
    for wanted in [6, 7, 255, 65_536] {
        add(&q(), turned, wanted, Err(17));
        add(&q(), sequential, wanted, Err(17));
        add(&q(), "criterion sequential\nview order\n0 0,2\n", wanted, Err(3));
    }
    add(&c(), &converge.replace("2 1\n", "2 -\n"), 0, Err(17));
    add(&c(), &converge.replace("2 1\n", "2 -\n"), 1, Err(11));
    cases
}

/// Weakenings written down by hand: the model's and the checker's.
pub fn weakenings(comparer: &mut Comparer, _: &mut Random, _: usize) {
    for (history, certificate, wanted, expected) in weakening_cases() {
        let history = history.text();
        let given = crate::weaken::weaken_texts(&Document01, &history, certificate.as_bytes(), wanted);
        let given = given.map(|text| String::from_utf8(text).expect("it is ASCII"));
        assert_eq!(given, expected, "the model itself differs from what is stated: {certificate} to {wanted}");
        // What it gives is accepted, and what it was given is what the answer says.
        let text = expected.clone().unwrap_or(certificate.clone());
        comparer.check(&history, text.as_bytes());
        for buffer in crate::group_memory::lengths_around(text.len()) {
            comparer.compare(Call::Weaken { wanted, buffer }, &history, certificate.as_bytes());
        }
        if comparer.done() {
            return;
        }
    }
}
