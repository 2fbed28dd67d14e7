//! One line of stock (document 02, T-11): histories whose causal order orders every two updates, by one process that
//! does them all or by several that hand them over, and those that leave two unordered.

use crate::answers::given;
use crate::brute::{orderings, Brute};
use crate::certificate::{Certificate, Criterion, List, CRITERIA};
use crate::checker::Lent;
use crate::compare::{run, Call, Comparer};
use crate::damage::{damage_certificate, damage_history, damaged_texts};
use crate::group_memory::lengths_around;
use crate::group_random::pair;
use crate::history::History;
use crate::make::{
    answers_of, certified, certified_by, lose_now_and_then, lose_some, pasts_with, random_order, random_size, register_history,
    shape, Size,
};
use crate::objects::{Kind, Op, KINDS};
use crate::random::Random;
use crate::samples::{certificate, channel, crossing, event, lost, object, one_line, window, with_lost};
use crate::sequential::is_source;

/// A buffer with room for every text.
const ROOM: usize = 32_768;

/// The criteria from which a line is written.
const SOURCES: [Criterion; 4] = [Criterion::Weak, Criterion::Causal, Criterion::Strict, Criterion::Converge];

/// The documents' words for an update: write, push, pop.
fn updates(history: &History, e: usize) -> bool {
    ["write", "push", "pop"].contains(&history.events[e].op.word())
}

/// The two updates of lowest numbers that the pasts leave unordered.
fn unordered(history: &History, pasts: &[List]) -> Option<(usize, usize)> {
    let events = 0..history.events.len();
    let pairs = events.clone().flat_map(|a| events.clone().map(move |b| (a, b))).filter(|(a, b)| a < b);
    pairs
        .filter(|(a, b)| updates(history, *a) && updates(history, *b))
        .find(|(a, b)| !pasts[*b].contains(a) && !pasts[*a].contains(b))
}

/// The number that the checker answers, and the text that it writes into a buffer with room.
fn written(comparer: &Comparer, history: &[u8], certificate: &[u8]) -> (u32, Vec<u8>) {
    let mut buffer = Lent::new(ROOM, |_| 0u8);
    let mut length = 0;
    let answer = comparer.checker.sequential(history, certificate, &mut buffer, &mut length);
    (answer, buffer.part()[..(length as usize).min(ROOM)].to_vec())
}

/// Holds the checker to the refusal's number or the text that is stated, in buffers of the lengths around the text's.
fn hold_stated(comparer: &mut Comparer, name: &str, history: &[u8], certificate: &[u8], stated: &Result<String, u32>) {
    let length = stated.as_ref().map_or(certificate.len(), String::len);
    for buffer in lengths_around(length).into_iter().chain([ROOM]) {
        if comparer.done() {
            return;
        }
        let answer = comparer.compare(Call::Sequential { buffer }, history, certificate);
        let right = match stated {
            Ok(text) if text.len() <= buffer => 0,
            Ok(_) => 18,
            Err(refusal) => *refusal,
        };
        comparer.note(answer == right, || format!("{name}, buffer of {buffer}: given {answer}, stated {right}"));
    }
    let (_, text) = written(comparer, history, certificate);
    let right = stated.clone().unwrap_or_default();
    comparer.note(text == right.as_bytes(), || format!("{name}: given {}, stated {right}", String::from_utf8_lossy(&text)));
}

/// The sequential text with this line.
fn sequential_text(line: &str) -> String {
    format!("criterion sequential\nview order\n0 {line}\n")
}

/// A case written down by hand: its name, the history, the certificate, and the refusal's number or the line.
type Case = (&'static str, History, Certificate, Result<String, u32>);

/// Events of which every two updates are ordered.
fn ordered_cases() -> Vec<Case> {
    use Criterion::{Causal, Converge, Strict, Weak};
    let registers = vec![object(Kind::Register), object(Kind::Register)];
    let read = |process, object, answer: &[u64]| event(process, object, Op::Read, None, answer);
    let write = |process, object, value| event(process, object, Op::Write, Some(value), &[]);
    let mut cases = vec![];
    let (history, given) = one_line();
    cases.push(("the sample", history, given, Ok("1,0,3,2,5,4".to_string())));
    let none = History::default();
    for criterion in SOURCES {
        let orders = if criterion == Converge { vec![vec![]] } else { vec![] };
        cases.push(("no events", none.clone(), Certificate::new(&none, criterion, vec![], orders), Ok("-".to_string())));
    }
    // Reads at one place stand by rising number, also where the causal order has them otherwise.
    let events = vec![read(0, 0, &[0]), read(1, 0, &[0]), read(2, 1, &[0])];
    let reads = History { objects: registers.clone(), events };
    let given = certificate(&reads, Weak, &[&[1, 2], &[2], &[]], &[&[2, 1, 0], &[2, 1], &[2]]);
    cases.push(("reads alone, each after the next", reads.clone(), given, Ok("0,1,2".to_string())));
    let given = certificate(&reads, Converge, &[&[], &[], &[]], &[&[2, 0, 1]]);
    cases.push(("reads alone, unordered", reads, given, Ok("0,1,2".to_string())));
    // By number alone, whatever the process, the object and the op are.
    let peek = |process| event(process, 1, Op::Peek, None, &[]);
    let events = vec![peek(2), read(1, 0, &[0]), peek(0)];
    let mixed = History { objects: vec![object(Kind::Register), object(Kind::Queue)], events };
    let given = certificate(&mixed, Weak, &[&[], &[], &[]], &[&[0], &[1], &[2]]);
    cases.push(("reads and peeks of falling processes", mixed, given, Ok("0,1,2".to_string())));
    // The longest line.
    let longest = register_history(64, 8);
    let all: List = (0..64).collect();
    let given = Certificate::new(&longest, Converge, all.iter().map(|e| (0..*e).collect()).collect(), vec![all.clone()]);
    let numbers: Vec<String> = all.iter().map(usize::to_string).collect();
    cases.push(("64 events", longest, given, Ok(numbers.join(","))));
    // A read stands after the last update in its past, of whatever object, and before the next one, of whatever object.
    let events = vec![write(0, 0, 1), write(0, 1, 2), write(0, 0, 3), read(1, 0, &[1]), read(2, 1, &[2]), read(3, 1, &[0])];
    let two = History { objects: registers.clone(), events };
    let given = certificate(
        &two,
        Causal,
        &[&[], &[0], &[0, 1], &[0, 1], &[0, 1, 2], &[0]],
        &[&[0], &[0, 1], &[0, 1, 2], &[0, 1, 3], &[0, 1, 2, 4], &[0, 5]],
    );
    cases.push(("updates of the other object between", two, given, Ok("0,5,1,3,2,4".to_string())));
    // The numbers of the updates fall along the causal order: each process waits for the next one.
    let events = vec![write(0, 0, 7), write(1, 1, 8), write(2, 0, 9), read(3, 0, &[9]), read(3, 0, &[7])];
    let falling = History { objects: registers, events };
    let pasts: [&[usize]; 5] = [&[1, 2], &[2], &[], &[2], &[0, 1, 2, 3]];
    let views: [&[usize]; 4] = [&[2, 1, 0, 3, 4], &[2, 1, 0, 3, 4], &[2, 3, 1, 0, 4], &[2, 3, 1, 0, 4]];
    let given = certificate(&falling, Strict, &pasts, &views);
    cases.push(("updates by falling numbers", falling, given, Ok("2,3,1,0,4".to_string())));
    // A refused push, a pop of nothing and updates whose answers are lost are updates: reads stand before and behind.
    let events = vec![
        event(0, 0, Op::Pop, None, &[]),
        event(0, 0, Op::Push, Some(5), &[]),
        event(0, 0, Op::Push, Some(6), &[6]),
        lost(event(0, 0, Op::Push, Some(7), &[])),
        lost(event(0, 0, Op::Pop, None, &[])),
        event(1, 0, Op::Peek, None, &[]),
        event(2, 0, Op::Peek, None, &[]),
        event(3, 0, Op::Peek, None, &[5]),
        event(4, 0, Op::Peek, None, &[5]),
        lost(event(5, 0, Op::Peek, None, &[])),
        event(6, 0, Op::Peek, None, &[]),
    ];
    let slot = History { objects: vec![channel(1)], events };
    let pasts: Vec<List> = [0, 1, 2, 3, 4, 0, 1, 2, 3, 4, 5].iter().map(|count| (0..*count).collect()).collect();
    let view: List = vec![5, 6, 7, 8, 9, 10, 0, 1, 2, 3, 4];
    let cut = |e: usize| view.iter().copied().filter(|f| *f != e && pasts[e].contains(f)).chain([e]).collect();
    let given = Certificate::new(&slot, Weak, pasts.clone(), (0..11).map(cut).collect());
    cases.push(("a refused push, a pop of nothing and lost answers", slot, given, Ok("5,0,6,1,7,2,8,3,9,4,10".to_string())));
    cases
}

/// The sample `crossing`, and histories of two or three events, each by its own process, whose updates an accepted
/// certificate leaves unordered or orders.
fn crossing_cases() -> Vec<Case> {
    use Criterion::Weak;
    let (history, given) = crossing();
    let mut cases = vec![("the sample", history, given, Err(26))];
    let write = |process, object| event(process, object, Op::Write, Some(3), &[]);
    let push = |process, answer: &[u64]| event(process, 0, Op::Push, Some(4), answer);
    let pop = |process| event(process, 0, Op::Pop, None, &[]);
    let peek = |process| event(process, 0, Op::Peek, None, &[]);
    let kinds = |kind: Kind| vec![object(kind), object(kind)];
    let two = |objects, first, second| History { objects, events: vec![first, second] };
    let unordered: [(&'static str, History); 10] = [
        ("two writes", two(kinds(Kind::Register), write(0, 0), write(1, 0))),
        ("writes to two objects", two(kinds(Kind::Register), write(0, 0), write(1, 1))),
        ("writes to two windows", two(vec![window(2), window(2)], write(0, 1), write(1, 0))),
        ("two pushes", two(kinds(Kind::Stack), push(0, &[]), push(1, &[]))),
        ("two pops of nothing", two(kinds(Kind::Queue), pop(0), pop(1))),
        ("a push and a pop of nothing", two(kinds(Kind::Queue), push(0, &[]), pop(1))),
        ("a push and a pop of nothing, of a stack", two(kinds(Kind::Stack), pop(0), push(1, &[]))),
        ("the second's answer is lost", two(kinds(Kind::Queue), push(0, &[]), lost(pop(1)))),
        ("the first's answer is lost", two(kinds(Kind::Register), lost(write(0, 0)), write(1, 1))),
        ("both answers are lost", two(vec![channel(1)], lost(push(0, &[])), lost(push(1, &[])))),
    ];
    let alone: [&[usize]; 2] = [&[], &[]];
    for (name, history) in unordered {
        let given = certificate(&history, Weak, &alone, &[&[0], &[1]]);
        cases.push((name, history, given, Err(26)));
    }
    let reads: [(&'static str, History); 3] = [
        ("a write and a read", two(kinds(Kind::Register), write(0, 0), event(1, 0, Op::Read, None, &[0]))),
        ("a peek and a pop of nothing", two(kinds(Kind::Queue), peek(0), pop(1))),
        ("a push whose answer is lost and a peek", two(kinds(Kind::Stack), lost(push(0, &[])), peek(1))),
    ];
    for ((name, history), line) in reads.into_iter().zip(["1,0", "0,1", "1,0"]) {
        let given = certificate(&history, Weak, &alone, &[&[0], &[1]]);
        cases.push((name, history, given, Ok(line.to_string())));
    }
    // A third update beside a chain of two, or behind its first only: a pop of nothing, refused pushes.
    let refused = History { objects: vec![channel(1)], events: vec![push(0, &[]), push(1, &[4]), pop(2)] };
    let given = certificate(&refused, Weak, &[&[], &[0], &[]], &[&[0], &[0, 1], &[2]]);
    cases.push(("a refused push and a pop of nothing", refused.clone(), given, Err(26)));
    let given = certificate(&refused, Weak, &[&[2], &[0, 2], &[]], &[&[2, 0], &[2, 0, 1], &[2]]);
    cases.push(("a refused push behind both", refused, given, Ok("2,0,1".to_string())));
    let refused = History { objects: vec![channel(1)], events: vec![push(0, &[]), push(1, &[4]), push(2, &[4])] };
    let given = certificate(&refused, Weak, &[&[], &[0], &[0]], &[&[0], &[0, 1], &[0, 2]]);
    cases.push(("two refused pushes", refused, given, Err(26)));
    cases
}

/// The order of the refusals: a name, the history text, the certificate text, and the number.
fn refusal_cases() -> Vec<(&'static str, Vec<u8>, String, u32)> {
    let q = crate::samples::q().text();
    let (crossing, given) = crossing();
    let crossing = crossing.text();
    let given = String::from_utf8(given.text()).expect("it is ASCII");
    let pram = "criterion pram\nview order\n0 0,1\n1 0,1\n";
    let sequential = "criterion sequential\nview order\n0 0,1\n";
    vec![
        ("pram", q.clone(), pram.to_string(), 17),
        ("sequential", q.clone(), sequential.to_string(), 17),
        ("pram and 14", q.clone(), pram.replace("1 0,1", "1 0"), 17),
        ("pram and 16", q.clone(), pram.replace("1 0,1", "1 1,0"), 17),
        ("sequential and 14", q.clone(), sequential.replace("0,1", "0"), 17),
        ("sequential and 16", q.clone(), sequential.replace("0,1", "1,0"), 17),
        ("pram and 3", q.clone(), pram.replace("1 0,1", "1 0,2"), 3),
        ("sequential and 3", q.clone(), sequential.replace("0,1", "0,2"), 3),
        ("sequential and 2", q.clone(), sequential.replace("view", "views"), 2),
        ("sequential and the history's 2", b"object\n".to_vec(), sequential.to_string(), 2),
        ("sequential and the history's 1", vec![b'x'; 16_385], sequential.to_string(), 1),
        ("a too long certificate", q.clone(), "x".repeat(32_769), 1),
        ("pram and a line too many", q, format!("{pram}2 0,1\n"), 2),
        ("two unordered", crossing.clone(), given.clone(), 26),
        ("two unordered and 2", crossing.clone(), given.replace("view", "views"), 2),
        ("two unordered and 3", crossing.clone(), given.replace("0 0,1,2,3", "0 0,1,2,4"), 3),
        ("two unordered and 6", crossing.clone(), given.replace("3 0,1,2\n", "3 0,2,1\n"), 6),
        ("two unordered and 11", crossing.clone(), given.replace("3 0,1,2\n", "3 0,1\n"), 11),
        ("two unordered and 12", crossing.clone(), given.replace("2 0\n", "2 0,2\n"), 12),
        ("two unordered and 13", crossing.clone(), given.replace("0 -\n", "0 2\n"), 13),
        ("two unordered and 14", crossing.clone(), given.replace("0 0,1,2,3", "0 0,1,2"), 14),
        ("two unordered and 15", crossing.clone(), given.replace("0 0,1,2,3", "0 1,2,0,3"), 15),
        ("two unordered and 16", crossing, given.replace("2 0\n", "2 -\n"), 16),
    ]
}

/// Lines and refusals written down by hand, in buffers of every length around the text's; strict's 20 too.
pub fn stated(comparer: &mut Comparer, _: &mut Random, _: usize) {
    for (name, history, given, stated) in ordered_cases().into_iter().chain(crossing_cases()) {
        let stated = stated.map(|line| sequential_text(&line));
        hold_stated(comparer, name, &history.text(), &given.text(), &stated);
        hold_accepted(comparer, name, &history, &given);
        if let Ok(text) = stated {
            hold_text(comparer, name, &history, &given, text.as_bytes());
        }
        if comparer.done() {
            return;
        }
    }
    for (name, history, given, refusal) in refusal_cases() {
        hold_stated(comparer, name, &history, given.as_bytes(), &Err(refusal));
    }
    // S's writes are unordered; with process 0's view as 2,0,1,3 event 2 stands outside the past of 0.
    let s = "object kind width\n0 register -\nevent process object op value answer\n\
             0 0 0 write 4 -\n1 0 0 read - 9\n2 1 0 write 9 -\n3 1 0 read - 4\n";
    let strict = |view: &str| {
        format!("criterion strict\nevent past\n0 -\n1 0,2\n2 -\n3 0,2\nview order\n0 {view}\n1 2,0,3,1\n")
    };
    hold_stated(comparer, "S", s.as_bytes(), strict("0,2,1,3").as_bytes(), &Err(26));
    hold_stated(comparer, "S and 20", s.as_bytes(), strict("2,0,1,3").as_bytes(), &Err(20));
    hold_stated(comparer, "S and 15", s.as_bytes(), strict("1,2,0,3").as_bytes(), &Err(15));
}

/// The certificate itself is accepted.
fn hold_accepted(comparer: &mut Comparer, name: &str, history: &History, certificate: &Certificate) {
    if comparer.done() {
        return;
    }
    let (history, certificate) = (history.text(), certificate.text());
    let answer = comparer.compare(Call::Check, &history, &certificate);
    comparer.note(answer == 0, || {
        let texts = [history, certificate].concat();
        format!("{name}: not accepted, {answer}\n{}", String::from_utf8_lossy(&texts))
    });
}

/// The line of a sequential text.
fn line_of(text: &[u8]) -> Option<List> {
    let text = std::str::from_utf8(text).ok()?;
    let list = text.strip_prefix("criterion sequential\nview order\n0 ")?.strip_suffix('\n')?;
    if list == "-" {
        return Some(vec![]);
    }
    list.split(',').map(|entry| entry.parse().ok()).collect()
}

/// Holds a text that was written to the words: it has each event once, an update stands before e exactly if it is in
/// past(e), and neighbours that are no updates rise. The check accepts it as sequential, it is weakened to every
/// criterion, and from what it is weakened to the same text is written again.
fn hold_text(comparer: &mut Comparer, name: &str, history: &History, certificate: &Certificate, text: &[u8]) {
    if comparer.done() {
        return;
    }
    let events = history.events.len();
    let line = line_of(text).unwrap_or_default();
    let mut sorted = line.clone();
    sorted.sort_unstable();
    let place = |e: usize| line.iter().position(|entry| *entry == e);
    let is_before = |a: usize, b: usize| place(a) < place(b);
    let by_past = |e: usize| {
        (0..events).filter(|f| *f != e && updates(history, *f)).all(|f| is_before(f, e) == certificate.pasts[e].contains(&f))
    };
    let neighbours_rise = line.windows(2).all(|two| updates(history, two[0]) || updates(history, two[1]) || two[0] < two[1]);
    let follows = sorted == (0..events).collect::<List>() && (0..events).all(by_past) && neighbours_rise;
    let said = || format!("{name}: {} of\n{}", String::from_utf8_lossy(text), String::from_utf8_lossy(&certificate.text()));
    comparer.note(follows, || format!("not the words' line, {}", said()));
    let history = history.text();
    comparer.check(&history, text);
    let (answer, places) = given(comparer, &history, text);
    comparer.note(answer == 0 && places[0] == 4, || format!("not accepted as sequential but {answer}, {}", said()));
    for wanted in CRITERIA {
        let call = Call::Weaken { wanted: wanted.number(), buffer: ROOM };
        let answer = comparer.compare(call, &history, text);
        comparer.note(answer == 0, || format!("{answer} where it is weakened to {wanted:?}, {}", said()));
        let weaker = run(comparer.checker, call, &history, text);
        let weaker = &weaker.buffer.all[weaker.buffer.start..][..(weaker.length as usize).min(ROOM)];
        let answer = comparer.compare(Call::Sequential { buffer: text.len() }, &history, weaker);
        let right = if is_source(wanted) { 0 } else { 17 };
        comparer.note(answer == right, || format!("{answer} from what it is weakened to, {wanted:?}, {}", said()));
        if right == 0 {
            let again = written(comparer, &history, weaker).1;
            comparer.note(again == text, || format!("another text from what it is weakened to, {wanted:?}, {}", said()));
        }
    }
}

/// Makes most events reads and peeks.
fn mostly_reads(random: &mut Random, history: &mut History) {
    let rarity = 2 + random.under(3);
    for event in &mut history.events {
        if !random.once_in(rarity) {
            let reads = matches!(history.objects[event.object].kind, Kind::Register | Kind::Window);
            (event.op, event.value) = (if reads { Op::Read } else { Op::Peek }, None);
        }
    }
}

/// Objects and events of which one process does all updates, or any do.
fn site(random: &mut Random, size: Size) -> History {
    let mut history = shape(random, size);
    if random.once_in(2) {
        mostly_reads(random, &mut history);
    }
    if random.once_in(2) {
        let loader = random.under(8);
        for e in 0..history.events.len() {
            if updates(&history, e) {
                history.events[e].process = loader;
            }
        }
    }
    history
}

/// A history, and an accepted certificate whose causal order orders every two updates.
fn loaded(random: &mut Random, size: Size, criterion: Criterion) -> (History, Certificate) {
    let mut history = site(random, size);
    let needed = |a: usize, b: usize| history.program_order(a, b) || updates(&history, a) && updates(&history, b);
    let pasts = pasts_with(random, &history, &needed);
    let certificate = certified_by(random, &mut history, criterion, pasts);
    lose_now_and_then(random, &mut history);
    (history, certificate)
}

/// The same with two updates left unordered, and only these two.
fn crossed(random: &mut Random, criterion: Criterion) -> (History, Certificate) {
    loop {
        let size = Size { events: 2 + random.under(14), objects: 1 + random.under(3), processes: 4, values: 4, width: 3 };
        let mut history = shape(random, size);
        let events = history.events.len();
        let (a, b) = (random.under(events), random.under(events));
        let chained = |f: usize, e: usize| updates(&history, f) && updates(&history, e) && ![f, e].iter().all(|x| [a, b].contains(x));
        let pasts = pasts_with(random, &history, &|f, e| history.program_order(f, e) || chained(f, e));
        if unordered(&history, &pasts) == Some((a.min(b), a.max(b))) {
            let certificate = certified_by(random, &mut history, criterion, pasts);
            lose_now_and_then(random, &mut history);
            return (history, certificate);
        }
    }
}

/// Counts what sorts of updates these events are: refused pushes, pops of nothing, lost answers, and all the others.
fn count_sorts(history: &History, events: &[usize], seen: &mut [usize; 4]) {
    for event in events.iter().map(|e| &history.events[*e]) {
        let sort = match (event.op, event.answer.as_deref()) {
            (_, None) => 2,
            (Op::Push, Some([_])) => 0,
            (Op::Pop, Some([])) => 1,
            _ => 3,
        };
        seen[sort] += 1;
    }
}

/// Every sort of updates came, or the group says little.
fn all_came(comparer: &mut Comparer, seen: [usize; 4], rounds: usize) {
    if rounds >= 500 {
        comparer.note(seen.iter().all(|count| *count > 20), || format!("refused, of nothing, lost, other: {seen:?}"));
    }
}

/// Histories whose updates are ordered, of all sizes and criteria: the text is written, and holds what the words say.
pub fn loaders(comparer: &mut Comparer, random: &mut Random, rounds: usize) {
    let mut seen = [0; 4];
    for round in 0..rounds.div_ceil(4) {
        let size = random_size(random);
        let (history, certificate) = loaded(random, size, SOURCES[round % 4]);
        let (texts, given) = (history.text(), certificate.text());
        let ordered: List = (0..history.events.len()).filter(|e| updates(&history, *e)).collect();
        count_sorts(&history, &ordered, &mut seen);
        hold_accepted(comparer, "ordered updates", &history, &certificate);
        let (answer, text) = written(comparer, &texts, &given);
        comparer.note(answer == 0, || format!("ordered updates: {answer}\n{}", String::from_utf8_lossy(&[texts.clone(), given.clone()].concat())));
        for buffer in [0, text.len().saturating_sub(1), text.len(), text.len() + 1, ROOM] {
            comparer.compare(Call::Sequential { buffer }, &texts, &given);
        }
        hold_text(comparer, "ordered updates", &history, &certificate, &text);
        if comparer.done() {
            return;
        }
    }
    all_came(comparer, seen, rounds);
}

/// Histories with two updates unordered: 26, however long the buffer is. With another fault it is that fault's number.
pub fn crossings(comparer: &mut Comparer, random: &mut Random, rounds: usize) {
    let mut seen = [0; 4];
    for round in 0..rounds.div_ceil(2) {
        let (mut history, mut certificate) = crossed(random, SOURCES[round % 4]);
        let (a, b) = unordered(&history, &certificate.pasts).expect("two are unordered");
        count_sorts(&history, &[a, b], &mut seen);
        hold_accepted(comparer, "two updates unordered", &history, &certificate);
        let (texts, given) = (history.text(), certificate.text());
        for buffer in [0, 1, 32, texts.len(), ROOM] {
            let answer = comparer.compare(Call::Sequential { buffer }, &texts, &given);
            comparer.note(answer == 26 || comparer.done(), || format!("two updates unordered, buffer of {buffer}: {answer}"));
        }
        for _ in 0..2 {
            if random.once_in(4) {
                damage_history(random, &mut history);
            } else {
                damage_certificate(random, &history, &mut certificate);
            }
            let buffer = *random.pick(&[0, 40, ROOM]);
            comparer.compare(Call::Sequential { buffer }, &history.text(), &certificate.text());
        }
        if comparer.done() {
            return;
        }
    }
    all_came(comparer, seen, rounds);
}

/// Certificates of all six criteria, ordered and not, valid and damaged as records and as texts.
pub fn damaged(comparer: &mut Comparer, random: &mut Random, rounds: usize) {
    for round in 0..rounds {
        let (history, certificate) = if random.once_in(3) {
            pair(random)
        } else {
            let size = random_size(random);
            loaded(random, size, SOURCES[round % 4])
        };
        let (history, certificate) = damaged_texts(random, round, history, certificate);
        let buffer = *random.pick(&[0, 1, 40, 250, ROOM]);
        comparer.compare(Call::Sequential { buffer }, &history, &certificate);
        if comparer.done() {
            return;
        }
    }
}

/// 17 for pram and sequential, whatever the check says of the certificate and however long the buffer is.
pub fn no_sources(comparer: &mut Comparer, random: &mut Random, rounds: usize) {
    for _ in 0..rounds.div_ceil(16) {
        for criterion in CRITERIA.into_iter().filter(|criterion| !is_source(*criterion)) {
            let size = random_size(random);
            let mut history = site(random, size);
            let mut certificate = certified(random, &mut history, criterion);
            for damages in 0..3 {
                if damages > 0 {
                    damage_certificate(random, &history, &mut certificate);
                }
                // The damage may have changed the criterion.
                let is_source = is_source(certificate.criterion);
                let (history, certificate) = (history.text(), certificate.text());
                for buffer in [0, ROOM] {
                    let answer = comparer.compare(Call::Sequential { buffer }, &history, &certificate);
                    let check = comparer.compare(Call::Check, &history, &certificate);
                    let right = if (1..11).contains(&check) { check } else { 17 };
                    comparer.note(is_source || answer == right, || format!("{criterion:?} with {check}: {answer}, not {right}"));
                }
            }
            if comparer.done() {
                return;
            }
        }
    }
}

/// The lines that follow the words, of all orderings of the events: updates in causal order; the last update before a read
/// or peek is the last one of its past, or there is none; several at one place by rising number.
fn lines_by_words(history: &History, pasts: &[List]) -> Vec<List> {
    let last_in_past = |e: usize| {
        let of_past = |f: &&usize| updates(history, **f);
        let seen: List = pasts[e].iter().filter(of_past).copied().collect();
        seen.iter().copied().find(|f| seen.iter().all(|g| g == f || pasts[*f].contains(g)))
    };
    let follows = |line: &List| {
        let places = 0..line.len();
        places.clone().all(|at| {
            let e = line[at];
            let last_before = line[..at].iter().rev().find(|f| updates(history, **f)).copied();
            if updates(history, e) {
                return line[..at].iter().filter(|f| updates(history, **f)).all(|f| pasts[e].contains(f));
            }
            let rises = at == 0 || updates(history, line[at - 1]) || line[at - 1] < e;
            last_before == last_in_past(e) && rises
        })
    };
    let all: List = (0..history.events.len()).collect();
    orderings(&all).into_iter().filter(follows).collect()
}

/// A certificate of these pasts, its views drawn.
fn drawn(random: &mut Random, history: &History, criterion: Criterion, pasts: &[List]) -> Certificate {
    let all: List = (0..history.events.len()).collect();
    let before = |a: usize, b: usize| pasts[b].contains(&a);
    let sets: Vec<List> = match criterion {
        Criterion::Weak | Criterion::Causal => all.iter().map(|e| [&pasts[*e][..], &[*e]].concat()).collect(),
        _ => vec![all.clone(); criterion.view_numbers(history).len()],
    };
    let mut orders: Vec<List> = sets.iter().map(|set| random_order(random, set, &before)).collect();
    if criterion == Criterion::Strict {
        // Before each own event only its past stands.
        for (process, order) in history.processes().into_iter().zip(&mut orders) {
            let own: List = all.iter().copied().filter(|e| history.events[*e].process == process).collect();
            let sees = |a: usize, b: usize| before(a, b) || own.contains(&a) && a != b && !before(b, a);
            *order = random_order(random, &all, &sees);
        }
    }
    Certificate::new(history, criterion, pasts.to_vec(), orders)
}

/// A small history of one object or two, mostly of answers that a line of it gives.
fn small(random: &mut Random, events: usize) -> History {
    let objects = 1 + random.under(2);
    let size = Size { events, objects, processes: 1 + random.under(4), values: 3, width: 2 };
    let mut history = site(random, size);
    let all: List = (0..events).collect();
    let order = random_order(random, &all, &|a, b| history.program_order(a, b));
    for (e, answer) in order.iter().zip(answers_of(&history, &order)) {
        history.events[*e].answer = Some(answer);
    }
    match random.under(4) {
        0 => damage_history(random, &mut history),
        1 => lose_some(random, &mut history),
        _ => {}
    }
    history
}

/// Small histories under every causal order. Where an accepted certificate leaves no two updates unordered, the history is
/// sequential by the brute force, the words leave exactly one line, and it is the one that is written; where it leaves
/// two, the answer is 26.
pub fn brute(comparer: &mut Comparer, random: &mut Random, rounds: usize) {
    let mut brute = Brute::default();
    let mut outcomes = [0; 3];
    for round in 0..rounds.div_ceil(10) {
        let events = if round % 8 == 7 { 4 } else { random.under(4) };
        let history = small(random, events);
        let text = history.text();
        let is_sequential = brute.meets(&history, Criterion::Sequential);
        for order in brute.causal_orders(&history) {
            let pasts: Vec<List> = (0..events).map(|e| (0..events).filter(|f| order[e] >> f & 1 == 1).collect()).collect();
            let lines = lines_by_words(&history, &pasts);
            for criterion in SOURCES {
                let given = drawn(random, &history, criterion, &pasts).text();
                let check = comparer.compare(Call::Check, &text, &given);
                let answer = comparer.compare(Call::Sequential { buffer: ROOM }, &text, &given);
                let stated = match (check, unordered(&history, &pasts)) {
                    (0, Some(_)) => 26,
                    (0, None) => 0,
                    (fault, _) => fault,
                };
                let said = || format!("{}{}", String::from_utf8_lossy(&text), String::from_utf8_lossy(&given));
                comparer.note(answer == stated, || format!("given {answer}, stated {stated}\n{}", said()));
                outcomes[if stated == 0 { 0 } else { 1 + usize::from(stated == 26) }] += 1;
                if stated == 0 {
                    comparer.note(is_sequential, || format!("it is not sequential\n{}", said()));
                    comparer.note(lines.len() == 1, || format!("the words leave {} lines\n{}", lines.len(), said()));
                    let line = line_of(&written(comparer, &text, &given).1);
                    comparer.note(line.as_ref() == lines.first(), || format!("given {line:?}, the words' {lines:?}\n{}", said()));
                }
                if comparer.done() {
                    return;
                }
            }
        }
    }
    if rounds >= 500 {
        comparer.note(outcomes.iter().all(|count| *count > 100), || format!("written, refused, crossing: {outcomes:?}"));
    }
}

/// A history of so many events in which process 0 does the updates, one in `step` of them, each object in turn, and the
/// others read; every event sees what stands before it by number.
fn loaded_in_steps(
    random: &mut Random,
    events: usize,
    processes: usize,
    step: usize,
    criterion: Criterion,
) -> (History, Certificate) {
    let objects: Vec<_> = KINDS.iter().map(|(kind, _)| crate::objects::Object { kind: *kind, width: kind.has_width().then_some(2) }).collect();
    let mut history = History { objects, events: vec![] };
    for e in 0..events {
        let number = e / step % 5;
        let reads = matches!(history.objects[number].kind, Kind::Register | Kind::Window);
        let is_update = e % step == 0;
        let op = match (is_update, reads) {
            (true, true) => Op::Write,
            (true, false) => *random.pick(&[Op::Push, Op::Push, Op::Pop]),
            (false, true) => Op::Read,
            (false, false) => Op::Peek,
        };
        let value = op.takes_value().then_some(e as u64);
        let process = if is_update { 0 } else { e % processes };
        history.events.push(crate::history::Event { process, object: number, op, value, answer: None });
    }
    let pasts: Vec<List> = (0..events).map(|e| (0..e).collect()).collect();
    let certificate = certified_by(random, &mut history, criterion, pasts);
    (history, certificate)
}

/// The longest lines, the shortest, and lines of updates alone and of reads alone, in buffers around the text's length.
pub fn sizes(comparer: &mut Comparer, random: &mut Random, _: usize) {
    let mut cases: Vec<(History, Certificate)> = vec![];
    for criterion in SOURCES {
        for (events, processes) in [(0, 1), (1, 1), (2, 2), (9, 8), (10, 8), (11, 8), (63, 8), (64, 8), (64, 1)] {
            for step in [1, 2, 7, 100] {
                cases.push(loaded_in_steps(random, events, processes, step, criterion));
            }
        }
        for events in [1, 12, 64] {
            let size = Size { events, objects: 16, processes: 8, values: 65_536, width: 8 };
            cases.push(loaded(random, size, criterion));
        }
        let mut register = register_history(64, 8);
        let whole: Vec<List> = (0..64).map(|e| (0..e).collect()).collect();
        let certificate = certified_by(random, &mut register, criterion, whole.clone());
        cases.push((with_lost(register, &[0, 63]), certificate));
        let read = |e: usize| event(e % 8, 0, Op::Read, None, &[0]);
        let mut reads = History { objects: vec![object(Kind::Register)], events: (0..64).map(read).collect() };
        let certificate = certified_by(random, &mut reads, criterion, whole);
        cases.push((reads, certificate));
    }
    for (history, certificate) in cases {
        let (texts, given) = (history.text(), certificate.text());
        hold_accepted(comparer, "a size", &history, &certificate);
        let (answer, text) = written(comparer, &texts, &given);
        comparer.note(answer == 0, || format!("a size: {answer}"));
        for buffer in lengths_around(text.len()) {
            comparer.compare(Call::Sequential { buffer }, &texts, &given);
        }
        hold_text(comparer, "a size", &history, &certificate, &text);
        if comparer.done() {
            return;
        }
    }
}
