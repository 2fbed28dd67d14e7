//! The sample dispensers of document 01 (C as T-04 of document 02 has it), the stack of document 001, the same with lost
//! answers, small histories of channels and of windows, those of one line of stock and of updates that
//! cross, and the histories of Figure 3 of document 004.

use crate::certificate::{Certificate, Criterion, List, CRITERIA};
use crate::history::{Event, History};
use crate::objects::{Kind, Object, Op};

pub fn object(kind: Kind) -> Object {
    Object { kind, width: None }
}

pub fn window(width: usize) -> Object {
    Object { kind: Kind::Window, width: Some(width) }
}

pub fn channel(capacity: usize) -> Object {
    Object { kind: Kind::Channel, width: Some(capacity) }
}

/// An event on an object, written as in the samples: process, op, answer.
pub fn event(process: usize, object: usize, op: Op, value: Option<u64>, answer: &[u64]) -> Event {
    Event { process, object, op, value, answer: Some(answer.to_vec()) }
}

/// The event with its answer lost.
pub fn lost(event: Event) -> Event {
    Event { answer: None, ..event }
}

/// The history with the answers of these events lost.
pub fn with_lost(mut history: History, events: &[usize]) -> History {
    for e in events {
        history.events[*e].answer = None;
    }
    history
}

fn write(process: usize, value: u64) -> Event {
    event(process, 0, Op::Write, Some(value), &[])
}

fn read(process: usize, answer: &[u64]) -> Event {
    event(process, 0, Op::Read, None, answer)
}

fn push(process: usize, value: u64) -> Event {
    event(process, 0, Op::Push, Some(value), &[])
}

/// A push onto a full channel: the pushed value comes back.
fn refused(process: usize, value: u64) -> Event {
    event(process, 0, Op::Push, Some(value), &[value])
}

fn pop(process: usize, answer: &[u64]) -> Event {
    event(process, 0, Op::Pop, None, answer)
}

fn peek(process: usize, answer: &[u64]) -> Event {
    event(process, 0, Op::Peek, None, answer)
}

pub fn q() -> History {
    History { objects: vec![object(Kind::Queue)], events: vec![push(0, 7), pop(1, &[7])] }
}

pub fn w() -> History {
    History { objects: vec![window(2)], events: vec![write(0, 4), read(0, &[9, 4]), write(1, 9), read(1, &[4, 9])] }
}

pub fn c() -> History {
    History { objects: vec![window(2)], events: vec![write(0, 4), write(1, 9), read(1, &[9]), read(1, &[4, 9])] }
}

pub fn r() -> History {
    let events = vec![write(0, 3), write(1, 8), read(2, &[3]), read(2, &[8]), read(2, &[3])];
    History { objects: vec![object(Kind::Register)], events }
}

pub fn m() -> History {
    let events = vec![
        event(0, 0, Op::Write, Some(5), &[]),
        event(1, 0, Op::Read, None, &[5]),
        event(1, 1, Op::Write, Some(6), &[]),
        event(2, 1, Op::Read, None, &[6]),
        event(2, 0, Op::Read, None, &[0]),
    ];
    History { objects: vec![object(Kind::Register); 2], events }
}

/// A history's name, the history, the criteria that it meets and those that it breaks.
pub type Claim = (&'static str, History, Vec<Criterion>, Vec<Criterion>);

/// What document 01 says of the criteria of each sample: those met, and those not met.
pub fn claims() -> Vec<Claim> {
    use Criterion::{Causal, Converge, Pram, Sequential, Strict, Weak};
    vec![
        // Q's certificates of sequential and pram are accepted; sequential can be weakened to all.
        ("Q", q(), CRITERIA.to_vec(), vec![]),
        // W: causal accepted (so weak and pram too), "never converge or sequential". Each read has the other's write before
        // its own process's write, so under strict each write would be in the other's past.
        ("W", w(), vec![Causal, Weak, Pram], vec![Converge, Sequential, Strict]),
        // C: converge accepted (so weak too), "never pram" (so neither causal nor strict nor sequential).
        ("C", c(), vec![Converge, Weak], vec![Pram, Causal, Sequential, Strict]),
        // R: "weak; none of the others".
        ("R", r(), vec![Weak], vec![Pram, Causal, Converge, Sequential, Strict]),
        // M: "pram; not weak" (so none of those that can be weakened to weak).
        ("M", m(), vec![Pram], vec![Weak, Causal, Converge, Sequential, Strict]),
        // "The empty history meets all five", and strict.
        ("empty", History::default(), CRITERIA.to_vec(), vec![]),
    ]
}

/// The stack of source document 001, section 4: both other processes pop the first value, each in its own order.
pub fn stack() -> History {
    let events = vec![
        push(0, 1), push(0, 3), pop(0, &[3]), pop(1, &[1]), push(1, 2), pop(1, &[2]), pop(2, &[1]), pop(2, &[2]),
    ];
    History { objects: vec![object(Kind::Stack)], events }
}

/// A strict certificate of the stack that is accepted: the sample of `samples/stack`.
pub fn stack_certificate() -> Certificate {
    let pasts: [&[usize]; 8] = [&[], &[0], &[0, 1], &[0], &[0, 3], &[0, 3, 4], &[0], &[0, 3, 4, 6]];
    let views: [&[usize]; 3] = [&[0, 1, 2, 3, 4, 5, 6, 7], &[0, 3, 4, 5, 6, 7, 1, 2], &[0, 6, 3, 4, 7, 5, 1, 2]];
    certificate(&stack(), Criterion::Strict, &pasts, &views)
}

/// A single loader, process 0, with a register and a channel of one slot, and its certificate: an extension of the causal
/// order can put event 1 behind event 0, which it never saw.
pub fn one_line() -> (History, Certificate) {
    let events = vec![
        event(0, 1, Op::Push, Some(5), &[]),
        event(1, 1, Op::Peek, None, &[]),
        event(0, 0, Op::Write, Some(8), &[]),
        event(2, 1, Op::Peek, None, &[5]),
        event(0, 1, Op::Push, Some(6), &[6]),
        event(2, 0, Op::Read, None, &[8]),
    ];
    let history = History { objects: vec![object(Kind::Register), channel(1)], events };
    let pasts: [&[usize]; 6] = [&[], &[], &[0], &[0], &[0, 2], &[0, 2, 3]];
    let views: [&[usize]; 6] = [&[0], &[1], &[0, 2], &[0, 3], &[0, 2, 4], &[0, 3, 2, 5]];
    let certificate = certificate(&history, Criterion::Causal, &pasts, &views);
    (history, certificate)
}

/// Two loaders that do not see each other, each with a register of its own, and a certificate that leaves their writes
/// unordered.
pub fn crossing() -> (History, Certificate) {
    let write = |process, object, value| event(process, object, Op::Write, Some(value), &[]);
    let read = |process, object, answer| event(process, object, Op::Read, None, &[answer]);
    let events = vec![write(0, 0, 4), write(1, 1, 9), read(2, 0, 4), read(2, 1, 9)];
    let history = History { objects: vec![object(Kind::Register), object(Kind::Register)], events };
    let certificate = certificate(&history, Criterion::Converge, &[&[], &[], &[0], &[0, 1, 2]], &[&[0, 1, 2, 3]]);
    (history, certificate)
}

/// Histories that tell strict from its neighbours, by the words of T-06 of document 02.
pub fn claims_of_strict() -> Vec<Claim> {
    use Criterion::{Causal, Converge, Pram, Sequential, Strict, Weak};
    let of = |kind: Kind, events: Vec<Event>| History { objects: vec![object(kind)], events };
    vec![
        // 1 is pushed once and popped twice. The view of process 2, cut to each event's past, explains all answers.
        ("the stack of document 001", stack(), vec![Strict, Causal, Weak, Pram, Converge], vec![Sequential]),
        // Each reads its own write, and neither needs to know of the other's.
        (
            "each reads its own",
            of(Kind::Register, vec![write(0, 1), read(0, &[1]), write(1, 2), read(1, &[2])]),
            CRITERIA.to_vec(),
            vec![],
        ),
        // W with a register, `samples/S`: each reads the other's write behind its own, of which it comes to know in between.
        (
            "S",
            of(Kind::Register, vec![write(0, 4), read(0, &[9]), write(1, 9), read(1, &[4])]),
            vec![Strict, Causal, Weak, Pram],
            vec![Sequential, Converge],
        ),
        // Each pops its own value before it comes to know of the other's push. Each value is popped twice.
        (
            "each pops the other's too",
            of(Kind::Stack, vec![push(0, 1), pop(0, &[1]), pop(0, &[2]), push(1, 2), pop(1, &[2]), pop(1, &[1])]),
            vec![Strict, Causal, Weak, Pram],
            vec![Sequential],
        ),
        // Each finds the other's push before its own in the queue: under strict each push would be in the other's past.
        (
            "each peeks the other's in a queue",
            of(Kind::Queue, vec![push(0, 1), peek(0, &[2]), push(1, 2), peek(1, &[1])]),
            vec![Causal, Weak, Pram],
            vec![Strict, Converge, Sequential],
        ),
    ]
}

/// The samples with lost answers, and small histories of one process in which an op whose answer is lost takes effect.
/// Each with the criteria that it meets and breaks, by the words of documents 01 and 02.
pub fn claims_of_lost() -> Vec<Claim> {
    let all = || CRITERIA.to_vec();
    // One process: the view of each event has all earlier ones before it, so a history meets all criteria or none.
    let alone = |object: Object, events: Vec<Event>| History { objects: vec![object], events };
    let queue = || object(Kind::Queue);
    let register = || object(Kind::Register);
    let pops = |answer: &[u64]| {
        alone(object(Kind::Stack), vec![push(0, 7), push(0, 8), lost(pop(0, &[])), pop(0, answer)])
    };
    vec![
        ("Q, the pop's answer lost", with_lost(q(), &[1]), all(), vec![]),
        ("Q, the push's answer lost", with_lost(q(), &[0]), all(), vec![]),
        // With event 1's answer lost, only the order of the other read counts: 0,1,2,3.
        ("W, a read's answer lost", with_lost(w(), &[1]), all(), vec![]),
        // 1,2,0,3 with the last answer lost, 0,1,2,3 with the one before it lost.
        ("C, the last answer lost", with_lost(c(), &[3]), all(), vec![]),
        ("C, the answer before the last lost", with_lost(c(), &[2]), all(), vec![]),
        // 0,2,3,4,1 with the second read lost; 1,3,0,4 with the first.
        ("R, the second read's answer lost", with_lost(r(), &[3]), all(), vec![]),
        ("R, the first read's answer lost", with_lost(r(), &[2]), all(), vec![]),
        // 1,2,3,4,0: nothing shows that event 1 knew of the write.
        ("M, event 1's answer lost", with_lost(m(), &[1]), all(), vec![]),
        ("M, the last answer lost", with_lost(m(), &[4]), all(), vec![]),
        // A lost pop removes, a lost push adds, a lost write is read, a lost peek or read changes nothing.
        ("a pop after a lost pop", alone(queue(), vec![push(0, 7), lost(pop(0, &[])), pop(0, &[])]), all(), vec![]),
        ("a lost pop left out", alone(queue(), vec![push(0, 7), lost(pop(0, &[])), pop(0, &[7])]), vec![], all()),
        ("a stack's lost pop", pops(&[7]), all(), vec![]),
        ("a stack's lost pop left out", pops(&[8]), vec![], all()),
        ("a lost push", alone(queue(), vec![lost(push(0, 7)), pop(0, &[7])]), all(), vec![]),
        ("a lost push left out", alone(queue(), vec![lost(push(0, 7)), pop(0, &[])]), vec![], all()),
        ("a lost write", alone(register(), vec![lost(write(0, 7)), read(0, &[7])]), all(), vec![]),
        ("a lost write left out", alone(register(), vec![lost(write(0, 7)), read(0, &[0])]), vec![], all()),
        ("a window's lost write", alone(window(2), vec![lost(write(0, 7)), read(0, &[7])]), all(), vec![]),
        ("a window's lost write left out", alone(window(2), vec![lost(write(0, 7)), read(0, &[])]), vec![], all()),
        ("a lost peek", alone(queue(), vec![push(0, 7), lost(peek(0, &[])), pop(0, &[7])]), all(), vec![]),
        ("a lost peek that removes", alone(queue(), vec![push(0, 7), lost(peek(0, &[])), pop(0, &[])]), vec![], all()),
        ("a wrong answer behind a lost one", alone(register(), vec![lost(read(0, &[])), read(0, &[1])]), vec![], all()),
    ]
}

/// A channel of capacity 1 that takes 5, refuses 6 and gives 5: the sample of `samples/channel`.
pub fn one_slot() -> History {
    History { objects: vec![channel(1)], events: vec![push(0, 5), refused(1, 6), pop(0, &[5])] }
}

/// Small histories of one channel, each with the criteria that it meets and breaks by the words of documents 01 and 02.
pub fn claims_of_channels() -> Vec<Claim> {
    use Criterion::{Causal, Converge, Pram, Sequential, Strict, Weak};
    let all = || CRITERIA.to_vec();
    let of = |capacity: usize, events: Vec<Event>| History { objects: vec![channel(capacity)], events };
    let lost_push = |value: u64| lost(push(0, value));
    // A push of 5, another one of 6 by the same process, and two pops.
    let two = |capacity: usize, second: Event, first_pop: &[u64], second_pop: &[u64]| {
        of(capacity, vec![push(0, 5), second, pop(0, first_pop), pop(0, second_pop)])
    };
    vec![
        ("one slot", one_slot(), all(), vec![]),
        // One process: the view of each event has all earlier ones before it, so a history meets all criteria or none.
        ("the last slot", of(1, vec![push(0, 5)]), all(), vec![]),
        ("the last slot refused", of(1, vec![refused(0, 5)]), vec![], all()),
        ("the second slot", of(2, vec![push(0, 5), push(0, 6), refused(0, 7)]), all(), vec![]),
        ("the second slot refused", of(2, vec![push(0, 5), refused(0, 6)]), vec![], all()),
        ("a third push taken", of(2, vec![push(0, 5), push(0, 6), push(0, 7)]), vec![], all()),
        ("another value comes back", of(1, vec![push(0, 5), event(0, 0, Op::Push, Some(6), &[5])]), vec![], all()),
        ("a refused push changes nothing", two(1, refused(0, 6), &[5], &[]), all(), vec![]),
        ("a refused push goes in", two(1, refused(0, 6), &[5], &[6]), vec![], all()),
        ("a refused push drops the oldest", of(1, vec![push(0, 5), refused(0, 6), pop(0, &[6])]), vec![], all()),
        ("a pop frees a slot", of(1, vec![push(0, 5), pop(0, &[5]), push(0, 6), refused(0, 7)]), all(), vec![]),
        ("a pop frees no slot", of(1, vec![push(0, 5), pop(0, &[5]), refused(0, 6)]), vec![], all()),
        ("a peek frees a slot", of(1, vec![push(0, 5), peek(0, &[5]), push(0, 6)]), vec![], all()),
        ("the oldest goes first", two(2, push(0, 6), &[5], &[6]), all(), vec![]),
        ("the newest goes first", two(2, push(0, 6), &[6], &[5]), vec![], all()),
        // A push whose answer is lost goes in where there is a slot, and is refused where there is none.
        ("a lost push that is refused", two(1, lost_push(6), &[5], &[]), all(), vec![]),
        ("a lost push that goes in", two(2, lost_push(6), &[5], &[6]), all(), vec![]),
        ("a lost push into no slot", two(1, lost_push(6), &[5], &[6]), vec![], all()),
        ("a lost push left out of two slots", two(2, lost_push(6), &[5], &[]), vec![], all()),
        ("a lost push fills the last slot", of(1, vec![lost_push(5), refused(0, 6)]), all(), vec![]),
        ("a lost push leaves the last slot", of(1, vec![lost_push(5), push(0, 6)]), vec![], all()),
        // Both pushes taken: neither needs to know of the other, but in one view one of them finds the channel full.
        (
            "two for one slot",
            of(1, vec![push(0, 5), push(1, 6)]),
            vec![Pram, Weak, Causal, Converge, Strict],
            vec![Sequential],
        ),
        // Both refused: each has the other before it in its process's view, and no causal order has both.
        (
            "none for one slot",
            of(1, vec![refused(0, 5), refused(1, 6)]),
            vec![Pram],
            vec![Weak, Causal, Converge, Sequential, Strict],
        ),
        // As W, with lost pushes: each process has the other's push in the one slot, so before its own.
        (
            "each peeks the other's",
            of(1, vec![lost_push(4), peek(0, &[9]), lost(push(1, 9)), peek(1, &[4])]),
            vec![Causal, Weak, Pram],
            vec![Converge, Sequential, Strict],
        ),
        // As C: process 1 comes to know late of a push that then stands before its own and has the one slot.
        (
            "an earlier push known late",
            of(1, vec![push(0, 4), push(1, 9), peek(1, &[9]), peek(1, &[4])]),
            vec![Converge, Weak],
            vec![Pram, Causal, Sequential, Strict],
        ),
        // As R: with no pop the slot keeps what it has, so no one view has both.
        (
            "the slot changes twice",
            of(1, vec![push(0, 3), push(1, 8), peek(2, &[3]), peek(2, &[8]), peek(2, &[3])]),
            vec![Weak],
            vec![Pram, Causal, Converge, Sequential, Strict],
        ),
    ]
}

/// Small histories of one window, each with the criteria that it meets and breaks by the words of documents 01 and 02.
pub fn claims_of_windows() -> Vec<Claim> {
    use Criterion::{Causal, Converge, Pram, Sequential, Strict, Weak};
    let all = || CRITERIA.to_vec();
    let of = |width: usize, events: Vec<Event>| History { objects: vec![window(width)], events };
    // Writes of 4, 9 and 7 by one process, and a read with this answer.
    let three = |width: usize, answer: &[u64]| of(width, vec![write(0, 4), write(0, 9), write(0, 7), read(0, answer)]);
    vec![
        // One process: the view of each event has all earlier ones before it, so a history meets all criteria or none.
        ("a window holds nothing at first", of(1, vec![read(0, &[])]), all(), vec![]),
        ("a window of 8 holds nothing at first", of(8, vec![read(0, &[])]), all(), vec![]),
        ("a zero at first", of(1, vec![read(0, &[0])]), vec![], all()),
        ("two zeros at first", of(2, vec![read(0, &[0, 0])]), vec![], all()),
        ("one of two places", of(2, vec![write(0, 4), read(0, &[4])]), all(), vec![]),
        ("one of two places, and a zero", of(2, vec![write(0, 4), read(0, &[0, 4])]), vec![], all()),
        ("a zero that was written", of(2, vec![write(0, 0), read(0, &[0])]), all(), vec![]),
        ("two zeros that were written", of(2, vec![write(0, 0), write(0, 0), read(0, &[0, 0])]), all(), vec![]),
        ("the last of three", three(1, &[7]), all(), vec![]),
        ("the last two of three", three(2, &[9, 7]), all(), vec![]),
        ("all three of three places", three(3, &[4, 9, 7]), all(), vec![]),
        ("all three of eight places", three(8, &[4, 9, 7]), all(), vec![]),
        ("the first two of three", three(2, &[4, 9]), vec![], all()),
        ("the last of three in two places", three(2, &[7]), vec![], all()),
        ("the last two, newest first", three(2, &[7, 9]), vec![], all()),
        ("the first and the last", three(2, &[4, 7]), vec![], all()),
        ("a zero, and all three", three(4, &[0, 4, 9, 7]), vec![], all()),
        ("nothing after writes", three(2, &[]), vec![], all()),
        ("a read changes nothing", of(2, vec![write(0, 4), read(0, &[4]), read(0, &[4])]), all(), vec![]),
        ("a read takes the values", of(2, vec![write(0, 4), read(0, &[4]), read(0, &[])]), vec![], all()),
        // Another process's write need not be known, and then the window is empty.
        ("another's write", of(1, vec![write(0, 4), read(1, &[]), read(1, &[4])]), all(), vec![]),
        // A read that answers 4 has the write in its past, and so have its process's later ones.
        ("another's write forgotten", of(1, vec![write(0, 4), read(1, &[4]), read(1, &[])]), vec![], all()),
        // Each reads before it knows of the other's write, but in one order the last read has both writes before it.
        (
            "each reads its own alone",
            of(2, vec![write(0, 4), read(0, &[4]), write(1, 9), read(1, &[9])]),
            vec![Pram, Weak, Causal, Converge, Strict],
            vec![Sequential],
        ),
    ]
}

/// The same claims where the answers of all writes and pushes are lost: these answers are empty anyhow.
pub fn updates_lost(claims: &[Claim]) -> Vec<Claim> {
    let lost = |history: &History| {
        let updates: List = (0..history.events.len()).filter(|e| history.events[*e].op.takes_value()).collect();
        with_lost(history.clone(), &updates)
    };
    let with = |(name, history, met, broken): &Claim| (*name, lost(history), met.clone(), broken.clone());
    claims.iter().map(with).collect()
}

/// A certificate written down: the history, criterion, pasts and views.
pub fn certificate(history: &History, criterion: Criterion, pasts: &[&[usize]], views: &[&[usize]]) -> Certificate {
    let lists = |lists: &[&[usize]]| lists.iter().map(|list| list.to_vec()).collect::<Vec<List>>();
    Certificate::new(history, criterion, lists(pasts), lists(views))
}

/// The histories of Figure 3 as far as the text of document 004 gives their events. The paper's letters: SC is sequential, PC
/// (pipelined) is pram, WCC is weak, CC is causal, CCv is converge. Each with the criteria that it meets and breaks: what the text
/// says is in quotes, and what follows from it by the strength of the criteria goes with it. The drawing itself is not in the text, so
/// where an event or a claim is ours the comment says so. Its windows start as zeros and ours are empty (T-04 of document 02), so the
/// zeros in front are left out of their answers.
pub fn figure_3() -> Vec<Claim> {
    use Criterion::{Causal, Converge, Pram, Sequential, Strict, Weak};
    let memory = |process: usize, register: char, value: Option<u64>, answer: &[u64]| {
        let op = if value.is_some() { Op::Write } else { Op::Read };
        event(process, register as usize - 'a' as usize, op, value, answer)
    };
    let window_2 = |events: Vec<Event>| History { objects: vec![window(2)], events };
    let queue = |events: Vec<Event>| History { objects: vec![object(Kind::Queue)], events };
    let registers = |count: usize, events: Vec<Event>| History { objects: vec![object(Kind::Register); count], events };
    // 3h: each process first reads 0 where the other has written, then knows of all that the other has written, then reads c. The
    // text names the two values of c, and that the first read of each process knows only of its own writes; the registers' part
    // in it, and that flags d and e show the other's writes, is our way to say so.
    let h = |first: u64, second: u64| {
        registers(
            5,
            vec![
                memory(0, 'a', Some(1), &[]),
                memory(0, 'c', Some(2), &[]),
                memory(0, 'd', Some(1), &[]),
                memory(0, 'b', None, &[0]),
                memory(0, 'e', None, &[1]),
                memory(0, 'c', None, &[first]),
                memory(1, 'b', Some(1), &[]),
                memory(1, 'c', Some(3), &[]),
                memory(1, 'e', Some(1), &[]),
                memory(1, 'a', None, &[0]),
                memory(1, 'd', None, &[1]),
                memory(1, 'c', None, &[second]),
            ],
        )
    };
    vec![
        // "weak causally consistent"; "causally convergent"; in pipelined consistency the processes "can never converge"; "not
        // causally consistent".
        (
            "a",
            window_2(vec![
                write(0, 1), read(0, &[1]), read(0, &[1, 2]), write(1, 2), read(1, &[2]), read(1, &[1, 2]),
            ]),
            vec![Weak, Converge],
            vec![Pram, Causal, Sequential, Strict],
        ),
        // "not weak causally consistent"; "not causally consistent". That it is pipelined consistent is ours.
        (
            "b",
            window_2(vec![write(0, 1), read(0, &[2, 1]), read(1, &[1]), write(1, 2)]),
            vec![Pram],
            vec![Weak, Causal, Converge, Sequential, Strict],
        ),
        // "causally consistent"; "not causally convergent". It isn't strict, as W.
        (
            "c",
            window_2(vec![write(0, 1), read(0, &[2, 1]), write(1, 2), read(1, &[1, 2])]),
            vec![Causal, Weak, Pram],
            vec![Converge, Sequential, Strict],
        ),
        // "sequentially consistent".
        (
            "d",
            window_2(vec![write(0, 1), read(0, &[1]), write(1, 2), read(1, &[1, 2])]),
            CRITERIA.to_vec(),
            vec![],
        ),
        // "both pipelined consistent and weakly causally consistent, it is not causally consistent".
        (
            "e",
            queue(vec![
                push(0, 1), pop(0, &[1]), pop(0, &[1]), push(0, 3), push(1, 2), pop(1, &[3]), push(1, 1),
            ]),
            vec![Pram, Weak],
            vec![Causal, Sequential, Strict],
        ),
        // "causally consistent": both pop in the state 1, 2 and get 1; at their next pop the queue is empty. The text leaves open
        // who pushes: both ways. That it isn't sequential is ours: 1 is pushed once and popped twice. So is that it is
        // strict: each process knows of what it needs before it does its next event.
        (
            "f, a push each",
            queue(vec![push(0, 1), pop(0, &[1]), pop(0, &[]), push(1, 2), pop(1, &[1]), pop(1, &[])]),
            vec![Causal, Weak, Pram, Strict],
            vec![Sequential],
        ),
        (
            "f, one pushes",
            queue(vec![push(0, 1), push(0, 2), pop(0, &[1]), pop(0, &[]), pop(1, &[1]), pop(1, &[])]),
            vec![Causal, Weak, Pram, Strict],
            vec![Sequential],
        ),
        // g has a queue with "remove head if it is v", which document 01 has not.
        // "In order to satisfy causal consistency, the register c must be set to 3 for the first and to 2 for the second in the
        // end, which cannot be reconciled with causal convergence." The second history, where both read 3, is ours. So is
        // that the first one is strict: each process writes first and comes to know of the other's writes then.
        ("h, c read as 3 and 2", h(3, 2), vec![Causal, Weak, Pram, Strict], vec![Converge, Sequential]),
        ("h, c read as 3 and 3", h(3, 3), vec![Converge, Weak], vec![Causal, Sequential, Strict]),
        // "correct for causal memory" (with a linearization for each process), not causally consistent.
        (
            "i",
            registers(
                4,
                vec![
                    memory(0, 'a', Some(1), &[]),
                    memory(0, 'a', Some(2), &[]),
                    memory(0, 'b', Some(3), &[]),
                    memory(0, 'd', None, &[3]),
                    memory(0, 'c', None, &[1]),
                    memory(0, 'a', Some(1), &[]),
                    memory(1, 'c', Some(1), &[]),
                    memory(1, 'c', Some(2), &[]),
                    memory(1, 'd', Some(3), &[]),
                    memory(1, 'b', None, &[3]),
                    memory(1, 'a', None, &[1]),
                    memory(1, 'c', Some(1), &[]),
                ],
            ),
            vec![Pram],
            vec![Causal, Sequential, Strict],
        ),
    ]
}
