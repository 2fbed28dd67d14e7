//! Whether histories meet criteria: the brute force, the search and the checker must agree, and so must what document 01 says of its
//! samples and document 004 of its Figure 3. About a half of the random histories have lost answers.

use crate::brute::{orderings, Brute};
use crate::certificate::{Certificate, Criterion, List, CRITERIA};
use crate::check::NONE;
use crate::checker::Lent;
use crate::compare::{Call, Comparer};
use crate::damage::damage_history;
use crate::group_random::pair;
use crate::history::{Event, History};
use crate::make::{answers_of, certified, lose_now_and_then, lose_some, random_answer, random_answers, shape, Size};
use crate::objects::{Kind, Object, Op, KINDS, OPS};
use crate::random::Random;
use crate::samples::{
    certificate, channel, claims, claims_of_channels, claims_of_lost, claims_of_strict, claims_of_windows, figure_3,
    updates_lost, window,
};
use crate::search::find;
use crate::weaken::is_pair;

/// Goes through all ways to take one item from each list, until one suits.
fn any_choice(lists: &[Vec<List>], suits: &mut dyn FnMut(&[List]) -> bool) -> bool {
    fn go(lists: &[Vec<List>], taken: &mut Vec<List>, suits: &mut dyn FnMut(&[List]) -> bool) -> bool {
        if taken.len() == lists.len() {
            return suits(taken);
        }
        for item in &lists[taken.len()] {
            taken.push(item.clone());
            if go(lists, taken, suits) {
                return true;
            }
            taken.pop();
        }
        false
    }
    go(lists, &mut vec![], suits)
}

/// For each view all orderings of its set: past(e) and e under weak and causal, else all events.
fn lists_of_views(history: &History, criterion: Criterion, pasts: &[List]) -> Vec<Vec<List>> {
    let all: List = (0..history.events.len()).collect();
    match criterion {
        Criterion::Weak | Criterion::Causal => all.iter().map(|e| orderings(&[&pasts[*e][..], &[*e]].concat())).collect(),
        _ => vec![orderings(&all); criterion.view_numbers(history).len()],
    }
}

/// Is some certificate accepted? Where there are too many of them, they are tried by turns.
fn some_accepted(comparer: &mut Comparer, brute: &mut Brute, history: &History, criterion: Criterion) -> bool {
    // Strict has as many views as pram for each causal order.
    let most = if criterion == Criterion::Strict { 3 } else { 4 };
    if history.events.len() > most {
        some_accepted_by_turns(comparer, brute, history, criterion)
    } else {
        some_accepted_of_all(comparer, brute, history, criterion)
    }
}

/// Is some certificate accepted, of all those built from the causal orders and all orderings of the views' sets?
fn some_accepted_of_all(comparer: &mut Comparer, brute: &mut Brute, history: &History, criterion: Criterion) -> bool {
    let events = history.events.len();
    let text = history.text();
    let mut accepted = |pasts: &[List], orders: &[List]| {
        let certificate = Certificate::new(history, criterion, pasts.to_vec(), orders.to_vec());
        comparer.compare(Call::Check, &text, &certificate.text()) == 0
    };
    if !criterion.has_pasts() {
        return any_choice(&lists_of_views(history, criterion, &[]), &mut |orders| accepted(&[], orders));
    }
    brute.causal_orders(history).iter().any(|order| {
        let pasts: Vec<List> = (0..events).map(|e| (0..events).filter(|f| order[e] >> f & 1 == 1).collect()).collect();
        any_choice(&lists_of_views(history, criterion, &pasts), &mut |orders| accepted(&pasts, orders))
    })
}

/// The same where the certificates are too many: the views are judged each by itself, so a view that is refused
/// makes way for its set's next ordering, and the views below it stay. A refusal of the pasts can't come: they are a causal order.
fn some_accepted_by_turns(comparer: &mut Comparer, brute: &mut Brute, history: &History, criterion: Criterion) -> bool {
    let events = history.events.len();
    let text = history.text();
    let numbers = criterion.view_numbers(history);
    let orders = if criterion.has_pasts() { brute.causal_orders(history) } else { vec![vec![]] };
    orders.iter().any(|order| {
        let past = |e: usize| -> List { (0..events).filter(|f| order[e] >> f & 1 == 1).collect() };
        let pasts: Vec<List> = if criterion.has_pasts() { (0..events).map(past).collect() } else { vec![] };
        let mut lists = lists_of_views(history, criterion, &pasts);
        if criterion == Criterion::Strict {
            // Still too many: those against program order, which every causal order contains, are left out.
            let against = |order: &List| (0..events).any(|j| (0..j).any(|i| history.program_order(order[j], order[i])));
            lists.iter_mut().for_each(|list| list.retain(|order| !against(order)));
        }
        let mut turns = vec![0; lists.len()];
        loop {
            let views = turns.iter().zip(&lists).map(|(turn, list)| list[*turn].clone()).collect();
            let certificate = Certificate::new(history, criterion, pasts.clone(), views).text();
            if comparer.compare(Call::Check, &text, &certificate) == 0 {
                return true;
            }
            let mut places = Lent::new(7, |_| 0);
            comparer.checker.verdict(&text, &certificate, &mut places);
            let refused = places.part()[3] as usize;
            let Some(place) = numbers.iter().position(|number| *number == refused) else { return false };
            turns[place] += 1;
            if turns[place] == lists[place].len() {
                return false;
            }
        }
    })
}

/// A small random history: one object or two, few values, so that about half of them meet a criterion. A third of them
/// has lost answers.
fn small(random: &mut Random, events: usize) -> History {
    let objects = 1 + usize::from(random.once_in(3));
    let size = Size { events, objects, processes: 1 + random.under(3), values: 3, width: 2 };
    let mut history = shape(random, size);
    if random.once_in(4) {
        random_answers(random, &mut history, 3);
    } else {
        nearly_certified(random, &mut history);
    }
    lose_now_and_then(random, &mut history);
    history
}

/// Gives the history answers that meet a criterion, and then now and then damages it.
fn nearly_certified(random: &mut Random, history: &mut History) {
    let criterion = *random.pick(&CRITERIA);
    certified(random, history, criterion);
    for _ in 0..random.under(3) {
        damage_history(random, history);
    }
}

/// A small random history of one object. Many of them break a criterion: all values are different, and each answer is
/// any that the event could get; of a push onto a channel it is mostly nothing or the pushed value.
fn small_of(random: &mut Random, object: Object, events: usize) -> History {
    let mut history = History { objects: vec![object], events: vec![] };
    let processes = 2 + random.under(2);
    while history.events.len() < events {
        let op = random.pick(&OPS).0;
        if object.kind.has(op) {
            let value = op.takes_value().then_some(history.events.len() as u64 + 1);
            history.events.push(Event { process: random.under(processes), object: 0, op, value, answer: None });
        }
    }
    for e in 0..events {
        let answers = match history.events[e].value {
            Some(value) if object.kind == Kind::Channel && !random.once_in(16) => vec![vec![], vec![value]],
            _ => possible_answers(&history, e),
        };
        history.events[e].answer = Some(random.pick(&answers).clone());
    }
    history
}

/// A small random history of a channel with one slot or two.
fn small_channel(random: &mut Random, events: usize) -> History {
    let capacity = 1 + random.under(2);
    small_of(random, channel(capacity), events)
}

/// A small random history of a window of width 1 to 3. A read answers mostly values that were written, each once.
fn small_window(random: &mut Random, events: usize) -> History {
    let width = 1 + random.under(3);
    let mut history = small_of(random, window(width), events);
    let written: Vec<u64> = history.events.iter().filter_map(|event| event.value).collect();
    for event in history.events.iter_mut().filter(|event| event.op == Op::Read) {
        if !random.once_in(16) {
            let mut left = written.clone();
            let mut answer = vec![];
            for _ in 0..random.under(width.min(written.len()) + 1) {
                answer.push(left.remove(random.under(left.len())));
            }
            event.answer = Some(answer);
        }
    }
    history
}

/// A small random history of one object with a lost answer, if it has events. Most of the lost ones are of writes and
/// pushes, so that the others tell something.
fn small_with_lost(random: &mut Random, events: usize) -> History {
    let kind = random.pick(&KINDS).0;
    let width = kind.has_width().then(|| if kind == Kind::Window { 2 } else { 1 + random.under(2) });
    let mut history = small_of(random, Object { kind, width }, events);
    for event in &mut history.events {
        if random.once_in(if event.value.is_some() { 2 } else { 8 }) {
            event.answer = None;
        }
    }
    if events > 0 && !history.has_lost() {
        history.events[random.under(events)].answer = None;
    }
    history
}

/// One of the ways to draw a small history. Of one channel and of one window about a half meet a criterion.
fn small_of_each(random: &mut Random, events: usize) -> History {
    match random.under(7) {
        0 | 1 => small_with_lost(random, events),
        kind @ (2 | 3) => {
            let mut history = if kind == 2 { small_channel(random, events) } else { small_window(random, events) };
            if !random.once_in(4) {
                nearly_certified(random, &mut history);
            }
            history
        }
        _ => small(random, events),
    }
}

/// Does the history have a push that was refused?
fn has_refused(history: &History) -> bool {
    let answered = |event: &Event| event.answer.as_ref().is_some_and(|answer| !answer.is_empty());
    history.events.iter().any(|event| event.op == Op::Push && answered(event))
}

/// Does the history have a read of a window that answers fewer values than its width?
fn has_short_read(history: &History) -> bool {
    let short = |event: &Event| event.answer.as_ref().is_some_and(|list| Some(list.len()) < history.objects[event.object].width);
    history.events.iter().any(|event| event.op == Op::Read && short(event))
}

/// Whether the history meets the criterion by the brute force; some certificate must be accepted exactly then.
fn meets_as_accepted(comparer: &mut Comparer, brute: &mut Brute, history: &History, criterion: Criterion) -> bool {
    let meets = brute.meets(history, criterion);
    let accepted = some_accepted(comparer, brute, history, criterion);
    if !comparer.done() {
        comparer.note(meets == accepted, || {
            let text = String::from_utf8_lossy(&history.text()).into_owned();
            format!("{criterion:?}: the history meets it: {meets}; some certificate is accepted: {accepted}\n{text}")
        });
    }
    meets
}

/// How many histories broke and met each criterion.
type Outcomes = [[usize; 2]; CRITERIA.len()];

/// Each criterion was met by some of the histories and broken by some, or the group says nothing.
fn both_came(comparer: &mut Comparer, outcomes: Outcomes, which: &str) {
    for criterion in CRITERIA {
        let [broken, met] = outcomes[criterion as usize];
        let say = || format!("{criterion:?}: met by {met} histories {which}, broken by {broken}");
        comparer.note(broken > 4 && met > 4, say);
    }
}

/// Exhaustive: a history meets a criterion exactly when some certificate is accepted, with lost answers or without.
pub fn exhaustive(comparer: &mut Comparer, random: &mut Random, rounds: usize) {
    let mut brute = Brute::default();
    let mut outcomes = [Outcomes::default(); 2];
    for round in 0..rounds.div_ceil(5) {
        // Four or five events now and then: their certificates are many.
        let events = match round % 64 {
            63 => 5,
            other if other % 8 == 7 => 4,
            _ => random.under(4),
        };
        let history = small_of_each(random, events);
        for criterion in CRITERIA {
            let meets = meets_as_accepted(comparer, &mut brute, &history, criterion);
            outcomes[usize::from(history.has_lost())][criterion as usize][usize::from(meets)] += 1;
            if comparer.done() {
                return;
            }
        }
    }
    if rounds >= 500 {
        both_came(comparer, outcomes[0], "with none lost");
        both_came(comparer, outcomes[1], "with lost answers");
    }
}

/// The same of small histories of one object, drawn until they are as wanted.
fn as_wanted(
    comparer: &mut Comparer,
    random: &mut Random,
    rounds: usize,
    draw: fn(&mut Random, usize) -> History,
    wanted: (fn(&History) -> bool, &str),
) {
    let mut brute = Brute::default();
    let mut outcomes = Outcomes::default();
    for round in 0..rounds.div_ceil(10) {
        let events = if round % 16 == 15 { 4 } else { 2 + random.under(2) };
        let certify = random.once_in(2);
        let history = loop {
            let mut drawn = draw(random, events);
            if certify {
                nearly_certified(random, &mut drawn);
            }
            if wanted.0(&drawn) {
                break drawn;
            }
        };
        for criterion in CRITERIA {
            let meets = meets_as_accepted(comparer, &mut brute, &history, criterion);
            outcomes[criterion as usize][usize::from(meets)] += 1;
            if comparer.done() {
                return;
            }
        }
    }
    if rounds >= 500 {
        both_came(comparer, outcomes, wanted.1);
    }
}

/// Channels in which a push was refused.
pub fn refused(comparer: &mut Comparer, random: &mut Random, rounds: usize) {
    as_wanted(comparer, random, rounds, small_channel, (has_refused, "with a refused push"));
}

/// Windows that a read finds with fewer values than their width.
pub fn short_reads(comparer: &mut Comparer, random: &mut Random, rounds: usize) {
    as_wanted(comparer, random, rounds, small_window, (has_short_read, "with a short read"));
}

/// The pairs of two criteria, the stronger one first.
fn pairs() -> Vec<(Criterion, Criterion)> {
    let all = CRITERIA.into_iter().flat_map(|given| CRITERIA.map(|wanted| (given, wanted)));
    all.filter(|(given, wanted)| given != wanted && is_pair(*given, *wanted)).collect()
}

/// For each pair of criteria there are histories of four events, drawn in this way, that meet the weaker criterion and
/// break the stronger one, and some certificate is accepted of the one and none of the other.
fn apart(comparer: &mut Comparer, random: &mut Random, rounds: usize, draw: fn(&mut Random, usize) -> History) {
    let mut brute = Brute::default();
    for (stronger, weaker) in pairs() {
        for _ in 0..rounds.div_ceil(800) {
            let suits = |history: &History, brute: &mut Brute| {
                !brute.meets(history, stronger) && brute.meets(history, weaker)
            };
            let drawn = (0..20_000).map(|_| draw(random, 4)).find(|history| suits(history, &mut brute));
            comparer.note(drawn.is_some(), || format!("no history drawn meets {weaker:?} and not {stronger:?}"));
            let Some(history) = drawn else { continue };
            for (criterion, met) in [(stronger, false), (weaker, true)] {
                let accepted = some_accepted(comparer, &mut brute, &history, criterion);
                if comparer.done() {
                    return;
                }
                comparer.note(accepted == met, || {
                    let text = String::from_utf8_lossy(&history.text()).into_owned();
                    format!("{criterion:?}: the history meets it: {met}; a certificate is accepted: {accepted}\n{text}")
                });
            }
        }
    }
}

/// Lost answers leave the criteria apart.
pub fn lost_apart(comparer: &mut Comparer, random: &mut Random, rounds: usize) {
    apart(comparer, random, rounds, small_with_lost);
}

/// A channel of one slot or two onto which each of two processes pushes, and at which it then mostly peeks; or any small
/// one. Where each peeks at what the other one pushed, the history is causal and not strict: few drawn at random are.
fn peeked_channel(random: &mut Random, events: usize) -> History {
    let mut history = small_channel(random, events);
    if random.once_in(2) {
        return history;
    }
    let values: Vec<u64> = (1..=events as u64).collect();
    for e in 0..events {
        history.events[e].process = random.under(2);
        let first = !(0..e).any(|f| history.program_order(f, e));
        let event = &mut history.events[e];
        if first {
            (event.op, event.value, event.answer) = (Op::Push, Some(values[e]), Some(vec![]));
        } else {
            let op = if random.once_in(4) { Op::Pop } else { Op::Peek };
            (event.op, event.value, event.answer) = (op, None, Some(vec![*random.pick(&values)]));
        }
    }
    history
}

/// One channel tells the criteria apart.
pub fn channels_apart(comparer: &mut Comparer, random: &mut Random, rounds: usize) {
    apart(comparer, random, rounds, peeked_channel);
}

/// One window tells the criteria apart.
pub fn windows_apart(comparer: &mut Comparer, random: &mut Random, rounds: usize) {
    apart(comparer, random, rounds, small_window);
}

/// Every certificate of a history of up to two events, whatever its lists: an accepted one means that the criterion is met.
pub fn every_list(comparer: &mut Comparer, random: &mut Random, rounds: usize) {
    let mut brute = Brute::default();
    for _ in 0..rounds.div_ceil(50) {
        let events = 1 + random.under(2);
        let history = small_of_each(random, events);
        let text = history.text();
        // All lists of up to as many entries as there are events, repeats too; and all sets for the pasts.
        let mut lists: Vec<List> = vec![vec![]];
        for length in 1..=events {
            let shorter: Vec<List> = lists.iter().filter(|list| list.len() == length - 1).cloned().collect();
            lists.extend(shorter.iter().flat_map(|list| (0..events).map(move |e| [&list[..], &[e]].concat())));
        }
        let sets: Vec<List> = lists.iter().filter(|list| list.windows(2).all(|pair| pair[0] < pair[1])).cloned().collect();
        for criterion in CRITERIA {
            let views = vec![lists.clone(); criterion.view_numbers(&history).len()];
            let pasts = vec![sets.clone(); if criterion.has_pasts() { events } else { 0 }];
            let mut some = false;
            any_choice(&pasts, &mut |pasts| {
                any_choice(&views, &mut |orders| {
                    let certificate = Certificate::new(&history, criterion, pasts.to_vec(), orders.to_vec());
                    some |= comparer.check(&text, &certificate.text()) == 0;
                    false
                });
                false
            });
            if comparer.done() {
                return;
            }
            let meets = brute.meets(&history, criterion);
            comparer.note(meets == some, || format!("{criterion:?}: met {meets}, accepted {some}"));
        }
    }
}

/// The search agrees with the brute force on small histories, and what it finds is accepted. A history that meets a
/// criterion meets those that it can be weakened to.
pub fn searched(comparer: &mut Comparer, random: &mut Random, rounds: usize) {
    let mut brute = Brute::default();
    for round in 0..rounds {
        let events = if round % 100 == 99 { 5 } else { random.under(5) };
        let history = small_of_each(random, events);
        let met = CRITERIA.map(|criterion| brute.meets(&history, criterion));
        for (stronger, weaker) in pairs() {
            comparer.note(!met[stronger as usize] || met[weaker as usize], || {
                let text = String::from_utf8_lossy(&history.text()).into_owned();
                format!("by the brute force {stronger:?} is met and {weaker:?} is not\n{text}")
            });
        }
        for (criterion, meets) in CRITERIA.into_iter().zip(met) {
            let found = find(&history, criterion);
            comparer.note(meets == found.is_some(), || {
                let text = String::from_utf8_lossy(&history.text()).into_owned();
                format!("{criterion:?}: the brute force says {meets}, the search {}\n{text}", found.is_some())
            });
            if let Some(certificate) = found {
                accept(comparer, &history, &certificate, "found by the search");
            }
        }
        if comparer.done() {
            return;
        }
    }
}

fn accept(comparer: &mut Comparer, history: &History, certificate: &Certificate, name: &str) {
    comparer.check(&history.text(), &certificate.text());
    if comparer.done() {
        return;
    }
    let answer = comparer.checker.check(&history.text(), &certificate.text());
    comparer.note(answer == 0, || {
        let texts = String::from_utf8_lossy(&[history.text(), certificate.text()].concat()).into_owned();
        format!("{name}: refused with {answer}\n{texts}")
    });
}

/// What document 01 says of its samples, what follows where some of their answers are lost and of channels, what document
/// 001 says of its stack, and what document 004 says of Figure 3.
pub fn claimed(comparer: &mut Comparer, _: &mut Random, _: usize) {
    use Criterion::{Causal, Pram};
    let mut brute = Brute::default();
    let stated: Vec<_> = claims().into_iter().chain(claims_of_strict()).chain(figure_3()).collect();
    let of_lost = claims_of_lost().into_iter().chain(updates_lost(&stated));
    let of_objects = claims_of_channels().into_iter().chain(claims_of_windows());
    for (name, history, met, broken) in stated.clone().into_iter().chain(of_lost).chain(of_objects) {
        for (criteria, claim) in [(met, true), (broken, false)] {
            for criterion in criteria {
                let found = find(&history, criterion);
                comparer.note(found.is_some() == claim, || format!("{name}, {criterion:?}: claimed {claim}, the search says otherwise"));
                if let Some(certificate) = found {
                    accept(comparer, &history, &certificate, name);
                }
                // Without causal orders there are fewer to try.
                let events = history.events.len();
                if events <= if criterion.has_pasts() { 5 } else { 8 } {
                    let meets = brute.meets(&history, criterion);
                    comparer.note(meets == claim, || format!("{name}, {criterion:?}: claimed {claim}, the brute force says {meets}"));
                }
                if events <= 5 {
                    let accepted = some_accepted(comparer, &mut brute, &history, criterion);
                    comparer.note(accepted == claim, || format!("{name}, {criterion:?}: claimed {claim}, accepted {accepted}"));
                }
                if comparer.done() {
                    return;
                }
            }
        }
    }
    // The linearizations that document 004 writes down for c, e and i.
    let of = |letter: &str| figure_3().into_iter().find(|entry| entry.0 == letter).expect("it is in the figure").1;
    let pasts: [&[usize]; 4] = [&[], &[0, 2], &[], &[0, 2]];
    let views: [&[usize]; 4] = [&[0], &[2, 0, 1], &[2], &[2, 0, 3]];
    // As printed, the last one is w(2).w(1).r/(1,2), which gives 2,1: the order meant is w(1).w(2).
    let answer = comparer.check(&of("c").text(), &certificate(&of("c"), Causal, &pasts, &views).text());
    comparer.note(answer == 16, || format!("figure 3c as printed: {answer}"));
    let views: [&[usize]; 4] = [&[0], &[2, 0, 1], &[2], &[0, 2, 3]];
    accept(comparer, &of("c"), &certificate(&of("c"), Causal, &pasts, &views), "figure 3c");
    let views: [&[usize]; 2] = [&[4, 5, 6, 0, 1, 2, 3], &[4, 0, 1, 2, 3, 5, 6]];
    accept(comparer, &of("e"), &certificate(&of("e"), Pram, &[], &views), "figure 3e");
    let views: [&[usize]; 2] = [&[0, 1, 2, 6, 7, 8, 3, 9, 10, 11, 4, 5], &[0, 1, 2, 6, 7, 8, 9, 3, 4, 5, 10, 11]];
    accept(comparer, &of("i"), &certificate(&of("i"), Pram, &[], &views), "figure 3i");
}

/// The view in which the answer of each event would be visible, and the answer that it gives there. Under causal there
/// may be several such views; the one of the event itself is taken.
fn answers_in_views(history: &History, certificate: &Certificate) -> Vec<(usize, Vec<u64>)> {
    let in_order = |order: &[usize], e: usize| {
        let place = order.iter().position(|event| *event == e).expect("the event is in its view");
        answers_of(history, order).swap_remove(place)
    };
    let of_event = |e: usize| match certificate.criterion {
        Criterion::Sequential => (0, in_order(&certificate.views[0].order, e)),
        Criterion::Converge => {
            let kept = |event: &usize| *event == e || certificate.pasts[e].contains(event);
            let cut: List = certificate.views[0].order.iter().copied().filter(kept).collect();
            (0, in_order(&cut, e))
        }
        Criterion::Weak | Criterion::Causal => (e, in_order(&certificate.views[e].order, e)),
        Criterion::Pram | Criterion::Strict => {
            let process = history.events[e].process;
            let view = certificate.views.iter().find(|view| view.number == process).expect("the process has a view");
            (process, in_order(&view.order, e))
        }
    };
    (0..history.events.len()).map(of_event).collect()
}

/// Lost answers filled in. Where an answer is visible in one view only, an accepted certificate stays accepted when a
/// lost answer is filled in with what that view gives, and with any other it is refused with 16 at that view and event.
/// So a history with lost answers meets such a criterion exactly when it does with some answers in their places.
pub fn filled_in(comparer: &mut Comparer, random: &mut Random, rounds: usize) {
    for _ in 0..rounds.div_ceil(2) {
        let (mut history, certificate) = pair(random);
        lose_some(random, &mut history);
        let text = certificate.text();
        let answer = comparer.check(&history.text(), &text);
        if comparer.done() {
            return;
        }
        comparer.note(answer == 0, || format!("{:?} with lost answers: {answer}", certificate.criterion));
        let lost: List = (0..history.events.len()).filter(|e| history.events[*e].answer.is_none()).collect();
        // Under causal the same answer is visible in later views of the process, too.
        if lost.is_empty() || certificate.criterion == Criterion::Causal {
            continue;
        }
        let given = answers_in_views(&history, &certificate);
        let mut whole = history.clone();
        for e in &lost {
            whole.events[*e].answer = Some(given[*e].1.clone());
        }
        let answer = comparer.check(&whole.text(), &text);
        if comparer.done() {
            return;
        }
        comparer.note(answer == 0, || format!("{:?} with all filled in: {answer}", certificate.criterion));
        // One filled in at random, the others lost or filled in rightly.
        let e = *random.pick(&lost);
        for mut changed in [history, whole] {
            let other = random_answer(random, &changed, e, 3);
            let stated = if other == given[e].1 { (0, NONE, NONE) } else { (16, given[e].0 as u32, e as u32) };
            changed.events[e].answer = Some(other);
            comparer.check(&changed.text(), &text);
            if comparer.done() {
                return;
            }
            let mut places = Lent::new(7, |_| 0);
            let answer = comparer.checker.verdict(&changed.text(), &text, &mut places);
            let said = (answer, places.part()[3], places.part()[4]);
            comparer.note(said == stated, || {
                format!("{:?}, {e} filled in: given {said:?}, stated {stated:?}", certificate.criterion)
            });
        }
    }
    let mut brute = Brute::default();
    for _ in 0..rounds.div_ceil(8) {
        let events = 1 + random.under(4);
        let mut history = small_of_each(random, events);
        let e = random.under(events);
        history.events[e].answer = None;
        let answers = possible_answers(&history, e);
        for criterion in CRITERIA {
            let meets = brute.meets(&history, criterion);
            let filled = answers.iter().any(|answer| {
                let mut whole = history.clone();
                whole.events[e].answer = Some(answer.clone());
                brute.meets(&whole, criterion)
            });
            // Under causal an answer in its place may ask for more.
            let same = if criterion == Criterion::Causal { meets || !filled } else { meets == filled };
            comparer.note(same, || {
                let text = String::from_utf8_lossy(&history.text()).into_owned();
                format!("{criterion:?}: met with {e} lost: {meets}; with some answer in its place: {filled}\n{text}")
            });
        }
    }
}

/// All answers that an event could get: lists of the right lengths of 0 and the values that the history has.
fn possible_answers(history: &History, e: usize) -> Vec<Vec<u64>> {
    let mut values = vec![0];
    values.extend(history.events.iter().filter_map(|event| event.value));
    values.sort_unstable();
    values.dedup();
    let event = &history.events[e];
    let mut found = vec![];
    for length in history.objects[event.object].answer_lengths(event.op) {
        let mut lists: Vec<Vec<u64>> = vec![vec![]];
        for _ in 0..length {
            let longer = |list: &Vec<u64>| values.iter().map(|value| [&list[..], &[*value]].concat()).collect();
            lists = lists.iter().flat_map::<Vec<_>, _>(longer).collect();
        }
        found.extend(lists);
    }
    found
}
