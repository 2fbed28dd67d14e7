//! Wrong checkers, each with one thing spoilt, to show that the comparisons find it. Those of the check and of reading are the model
//! with one rule overridden; the others wrap the archive and spoil what it gives.

use crate::certificate::{Certificate, CertificateRules, Criterion, List, View, CERTIFICATE_LIMIT};
use crate::check::{CheckRules, Document01, Fault, Rules, NONE};
use crate::checker::{Archive, Checker, Lent, Model};
use crate::history::{line_of_event, Event, EventFields, History, HistoryRules, ObjectFields, CAPACITY_LIMIT};
use crate::objects::{Kind, Object, ObjectRules, Op, State};
use crate::texts::{lines_of, Carried, Line, NumberRules, Refusal, Text};
use crate::wrong_one_line::wrong_of_one_line;

/// A set of rules with some of one trait overridden.
macro_rules! wrong_rules {
    (@ $name:ident [$($objects:tt)*] [$($numbers:tt)*] [$($history:tt)*] [$($certificate:tt)*] [$($check:tt)*] [$($rules:tt)*]) => {
        struct $name;
        impl ObjectRules for $name { $($objects)* }
        impl NumberRules for $name { $($numbers)* }
        impl HistoryRules for $name { $($history)* }
        impl CertificateRules for $name { $($certificate)* }
        impl CheckRules for $name { $($check)* }
        impl Rules for $name { $($rules)* }
    };
    ($name:ident ObjectRules { $($body:tt)* }) => { wrong_rules!(@ $name [$($body)*] [] [] [] [] []); };
    ($name:ident NumberRules { $($body:tt)* }) => { wrong_rules!(@ $name [] [$($body)*] [] [] [] []); };
    ($name:ident HistoryRules { $($body:tt)* }) => { wrong_rules!(@ $name [] [] [$($body)*] [] [] []); };
    ($name:ident CertificateRules { $($body:tt)* }) => { wrong_rules!(@ $name [] [] [] [$($body)*] [] []); };
    ($name:ident CheckRules { $($body:tt)* }) => { wrong_rules!(@ $name [] [] [] [] [$($body)*] []); };
    ($name:ident Rules { $($body:tt)* }) => { wrong_rules!(@ $name [] [] [] [] [] [$($body)*]); };
}

/// A checker that has other limits of a width, by the kind.
macro_rules! wrong_width_limit {
    ($name:ident, $limit:expr) => {
        wrong_rules!($name HistoryRules {
            fn width_limit(&self, kind: Kind) -> u64 {
                let limit: fn(Kind) -> u64 = $limit;
                limit(kind)
            }
        });
    };
}

// The old console habits first.

wrong_rules!(EndsEarly CheckRules {
    fn replay(&self, history: &History, order: &[usize], visible: &dyn Fn(usize) -> bool) -> Option<usize> {
        Document01.replay(history, &order[..order.len().saturating_sub(1)], visible)
    }
});

wrong_rules!(LeavesOutPops CheckRules {
    fn replay(&self, history: &History, order: &[usize], visible: &dyn Fn(usize) -> bool) -> Option<usize> {
        let kept: Vec<usize> = order.iter().copied().filter(|e| history.events[*e].op != Op::Pop || visible(*e)).collect();
        Document01.replay(history, &kept, visible)
    }
});

wrong_rules!(ConvergeWhole CheckRules {
    fn cut(&self, certificate: &Certificate, _: usize) -> Vec<usize> {
        certificate.views[0].order.clone()
    }
});

wrong_rules!(NeighbouringLines CheckRules {
    fn lacks_own(&self, history: &History, certificate: &Certificate) -> Option<Fault> {
        let lacks = |e: &usize| *e > 0 && history.program_order(e - 1, *e) && !certificate.pasts[*e].contains(&(e - 1));
        (0..certificate.pasts.len()).find(lacks).map(|e| (11, None, Some(e)))
    }
});

wrong_rules!(NewestFirst ObjectRules {
    fn act(&self, object: &Object, state: &mut State, op: Op, value: Option<u64>) -> Vec<u64> {
        let mut answer = Document01.act(object, state, op, value);
        answer.reverse();
        answer
    }
});

// Other objects.

wrong_rules!(QueueAsStack ObjectRules {
    fn act(&self, object: &Object, state: &mut State, op: Op, value: Option<u64>) -> Vec<u64> {
        let kind = if object.kind == Kind::Queue { Kind::Stack } else { object.kind };
        Document01.act(&Object { kind, width: object.width }, state, op, value)
    }
});

wrong_rules!(PeekRemoves ObjectRules {
    fn act(&self, object: &Object, state: &mut State, op: Op, value: Option<u64>) -> Vec<u64> {
        Document01.act(object, state, if op == Op::Peek { Op::Pop } else { op }, value)
    }
});

wrong_rules!(EmptyAnswersZero ObjectRules {
    fn act(&self, object: &Object, state: &mut State, op: Op, value: Option<u64>) -> Vec<u64> {
        let empty = state.is_empty() && op == Op::Pop;
        let answer = Document01.act(object, state, op, value);
        if empty { vec![0] } else { answer }
    }
});

// Other checks.

/// The first of these faults that there is, in this order.
pub fn first_of(rules: &dyn CheckRules, order: &[u32], history: &History, certificate: &Certificate) -> Option<Fault> {
    order.iter().find_map(|number| match number {
        11 => rules.lacks_own(history, certificate),
        12 => rules.in_own_past(certificate),
        13 => rules.not_transitive(certificate),
        14 => rules.not_its_set(history, certificate),
        15 => rules.against(history, certificate),
        16 => rules.wrong_answer(history, certificate),
        _ => rules.outside_past(history, certificate),
    })
}

wrong_rules!(FifteenFirst CheckRules {
    fn fault(&self, history: &History, certificate: &Certificate) -> Option<Fault> {
        first_of(self, &[11, 12, 13, 15, 14, 20, 16], history, certificate)
    }
});

wrong_rules!(TwelveFirst CheckRules {
    fn fault(&self, history: &History, certificate: &Certificate) -> Option<Fault> {
        self.in_own_past(certificate).or_else(|| Document01.fault(history, certificate))
    }
});

wrong_rules!(LastWrong CheckRules {
    fn replay(&self, history: &History, order: &[usize], visible: &dyn Fn(usize) -> bool) -> Option<usize> {
        let answers = crate::make::answers_of(history, order);
        let differs = |place: usize| self.differs(&history.events[order[place]], &answers[place]);
        let wrong = |place: &usize| visible(order[*place]) && differs(*place);
        (0..order.len()).rev().find(wrong).map(|place| order[place])
    }
});

wrong_rules!(LowestWrong CheckRules {
    fn replay(&self, history: &History, order: &[usize], visible: &dyn Fn(usize) -> bool) -> Option<usize> {
        let answers = crate::make::answers_of(history, order);
        let differs = |place: usize| self.differs(&history.events[order[place]], &answers[place]);
        let wrong = |place: &usize| visible(order[*place]) && differs(*place);
        (0..order.len()).filter(wrong).map(|place| order[place]).min()
    }
});

wrong_rules!(ConvergeInViewOrder CheckRules {
    fn wrong_answer(&self, history: &History, certificate: &Certificate) -> Option<Fault> {
        if certificate.criterion != Criterion::Converge {
            return Document01.wrong_answer(history, certificate);
        }
        let wrong = |e: &&usize| self.replay(history, &self.cut(certificate, **e), &|event| event == **e).is_some();
        certificate.views[0].order.iter().find(wrong).map(|e| (16, Some(0), Some(*e)))
    }
});

wrong_rules!(ConvergeHighest CheckRules {
    fn converge_events(&self, history: &History) -> Vec<usize> {
        (0..history.events.len()).rev().collect()
    }
});

wrong_rules!(ViewByView CheckRules {
    fn fault(&self, history: &History, certificate: &Certificate) -> Option<Fault> {
        let fault = Document01.fault(history, certificate)?;
        if fault.0 < 14 {
            return Some(fault);
        }
        // Each view gets all its faults before the next view is looked at.
        certificate.views.iter().find_map(|view| {
            let only = Certificate { views: vec![view.clone()], ..certificate.clone() };
            first_of(self, &[14, 15, 20, 16], history, &only)
        })
    }
});

wrong_rules!(NotTransitiveIgnored CheckRules {
    fn not_transitive(&self, _: &Certificate) -> Option<Fault> {
        None
    }
});

wrong_rules!(HighestNotTransitive CheckRules {
    fn not_transitive(&self, certificate: &Certificate) -> Option<Fault> {
        let pasts = &certificate.pasts;
        let lacks = |e: &usize| pasts[*e].iter().any(|f| pasts[*f].iter().any(|g| !pasts[*e].contains(g)));
        (0..pasts.len()).rev().find(lacks).map(|e| (13, None, Some(e)))
    }
});

wrong_rules!(RepeatsAllowed CheckRules {
    fn is_its_set(&self, history: &History, certificate: &Certificate, view: &View) -> bool {
        (0..history.events.len()).all(|event| view.order.contains(&event) == self.in_set(certificate, view, event))
    }
});

wrong_rules!(FirstViewOnly CheckRules {
    fn wrong_answer(&self, history: &History, certificate: &Certificate) -> Option<Fault> {
        let fault = Document01.wrong_answer(history, certificate)?;
        (certificate.criterion == Criterion::Converge || fault.1 == certificate.views.first().map(|view| view.number)).then_some(fault)
    }
});

wrong_rules!(OthersVisible CheckRules {
    fn visible(&self, history: &History, certificate: &Certificate, view: &View, event: usize) -> bool {
        certificate.criterion == Criterion::Pram || Document01.visible(history, certificate, view, event)
    }
});

wrong_rules!(CausalAsWeak CheckRules {
    fn visible(&self, history: &History, certificate: &Certificate, view: &View, event: usize) -> bool {
        match certificate.criterion {
            Criterion::Causal => event == view.number,
            _ => Document01.visible(history, certificate, view, event),
        }
    }
});

wrong_rules!(ViewsByProgramOrder CheckRules {
    fn before(&self, history: &History, _: &Certificate, a: usize, b: usize) -> bool {
        history.program_order(a, b)
    }
});

wrong_rules!(AcceptsAll CheckRules {
    fn fault(&self, _: &History, _: &Certificate) -> Option<Fault> {
        None
    }
});

wrong_rules!(RejectsAll CheckRules {
    fn fault(&self, history: &History, certificate: &Certificate) -> Option<Fault> {
        Document01.fault(history, certificate).or(Some((16, Some(0), Some(0))))
    }
});

// Wrong ways to read a text.

wrong_rules!(Wraps16 NumberRules {
    fn number(&self, field: &[u8]) -> Option<u64> {
        Document01.number(field).map(|number| if number == 65_536 { 0 } else { number })
    }
});

wrong_rules!(Wraps64 NumberRules {
    fn number(&self, field: &[u8]) -> Option<u64> {
        Document01.number(field)?;
        Some(field.iter().fold(0u64, |sum, byte| sum.wrapping_mul(10).wrapping_add(u64::from(byte - b'0'))))
    }
});

wrong_rules!(LeadingZeros NumberRules {
    fn number(&self, field: &[u8]) -> Option<u64> {
        let zeros = field.iter().take_while(|byte| **byte == b'0').count().min(field.len().saturating_sub(1));
        Document01.number(&field[zeros..])
    }
});

wrong_rules!(TrailingComma NumberRules {
    fn list(&self, field: &[u8]) -> Option<Vec<u64>> {
        Document01.list(field.strip_suffix(b",").unwrap_or(field))
    }
});

wrong_rules!(LimitIsTooLong NumberRules {
    fn too_long(&self, length: usize, limit: usize) -> bool {
        length >= limit
    }
});

wrong_rules!(OneMoreByte NumberRules {
    fn too_long(&self, length: usize, limit: usize) -> bool {
        length > limit + 1
    }
});

wrong_rules!(NoFinalLineFeed NumberRules {
    fn line_feed_missing(&self, _: &Line) -> bool {
        false
    }
});

wrong_rules!(FourBeforeThree HistoryRules {
    fn event_fault(&self, fields: &EventFields, objects: &[Object]) -> Option<u32> {
        match objects.get(fields.object as usize) {
            Some(object) if self.event_misfit(fields, object) => Some(4),
            _ => Document01.event_fault(fields, objects),
        }
    }
});

wrong_rules!(FiveBeforeFour HistoryRules {
    fn event_fault(&self, fields: &EventFields, objects: &[Object]) -> Option<u32> {
        let fault = Document01.event_fault(fields, objects);
        let object = objects.get(fields.object as usize)?;
        if fault == Some(4) && object.kind.has(fields.op) && self.event_answer(fields, object) { Some(5) } else { fault }
    }
});

wrong_rules!(SixBeforeThree CertificateRules {
    fn list_fault(&self, list: &[u64], events: usize, past: bool) -> Option<u32> {
        if past && self.not_rising(list) { Some(6) } else { Document01.list_fault(list, events, past) }
    }
});

wrong_rules!(LongListsRead CertificateRules {
    fn list_over(&self, list: &[u64], events: usize) -> bool {
        list.iter().any(|entry| *entry >= events as u64)
    }
});

wrong_rules!(ViewsOfPramCounted CertificateRules {
    fn view_numbers(&self, criterion: Criterion, history: &History) -> Vec<usize> {
        (0..criterion.view_numbers(history).len()).collect()
    }
});

wrong_rules!(CertificateFirst Rules {
    fn read_both(&self, history: &[u8], certificate: &[u8]) -> Result<(History, Certificate), Refusal> {
        if certificate.len() > CERTIFICATE_LIMIT {
            return Err(Refusal::too_long(Text::Certificate));
        }
        Document01.read_both(history, certificate)
    }
});

// Lost answers, read and replayed wrongly.

wrong_rules!(LostRefused HistoryRules {
    fn answer(&self, field: &[u8]) -> Option<Option<Vec<u64>>> {
        self.list(field).map(Some)
    }
});

wrong_rules!(LostAsEmpty HistoryRules {
    fn answer(&self, field: &[u8]) -> Option<Option<Vec<u64>>> {
        self.list(if field == b"?" { b"-" } else { field }).map(Some)
    }
});

wrong_rules!(LostInList HistoryRules {
    fn answer(&self, field: &[u8]) -> Option<Option<Vec<u64>>> {
        if field.split(|byte| *byte == b',').any(|item| item == b"?") { Some(None) } else { Document01.answer(field) }
    }
});

wrong_rules!(LostByFirstByte HistoryRules {
    fn answer(&self, field: &[u8]) -> Option<Option<Vec<u64>>> {
        if field.first() == Some(&b'?') { Some(None) } else { Document01.answer(field) }
    }
});

wrong_rules!(LostIsFive HistoryRules {
    fn event_answer(&self, fields: &EventFields, object: &Object) -> bool {
        fields.answer.is_none() || Document01.event_answer(fields, object)
    }
});

wrong_rules!(LostBeforeFour HistoryRules {
    fn event_misfit(&self, fields: &EventFields, object: &Object) -> bool {
        // A value where `-` belongs is let pass; an op that the kind lacks couldn't be replayed.
        let passed = fields.answer.is_none() && object.kind.has(fields.op) && !fields.op.takes_value();
        !passed && Document01.event_misfit(fields, object)
    }
});

wrong_rules!(LostValue NumberRules {
    fn number_or_none(&self, field: &[u8]) -> Option<Option<u64>> {
        Document01.number_or_none(if field == b"?" { b"-" } else { field })
    }
});

wrong_rules!(LostIsWrong CheckRules {
    fn differs(&self, event: &Event, given: &[u64]) -> bool {
        event.answer.is_none() || Document01.differs(event, given)
    }
});

wrong_rules!(LostIsWrongInConverge CheckRules {
    fn wrong_answer(&self, history: &History, certificate: &Certificate) -> Option<Fault> {
        if certificate.criterion == Criterion::Converge {
            LostIsWrong.wrong_answer(history, certificate)
        } else {
            Document01.wrong_answer(history, certificate)
        }
    }
});

wrong_rules!(LostHasNoEffect CheckRules {
    fn replay(&self, history: &History, order: &[usize], visible: &dyn Fn(usize) -> bool) -> Option<usize> {
        let kept: Vec<usize> = order.iter().copied().filter(|e| history.events[*e].answer.is_some()).collect();
        Document01.replay(history, &kept, visible)
    }
});

wrong_rules!(LostEndsReplay CheckRules {
    fn replay(&self, history: &History, order: &[usize], visible: &dyn Fn(usize) -> bool) -> Option<usize> {
        let end = order.iter().position(|e| history.events[*e].answer.is_none()).unwrap_or(order.len());
        Document01.replay(history, &order[..end], visible)
    }
});

wrong_rules!(LostLeftOutOfViews CheckRules {
    fn is_its_set(&self, history: &History, certificate: &Certificate, view: &View) -> bool {
        let lost = |event: &usize| history.events[*event].answer.is_none();
        let missing = |event: &usize| self.in_set(certificate, view, *event) && !view.order.contains(event);
        let mut whole = view.clone();
        whole.order.extend((0..history.events.len()).filter(lost).filter(missing));
        Document01.is_its_set(history, certificate, &whole)
    }
});

wrong_rules!(LostHasNoPast CheckRules {
    fn lacks_own(&self, history: &History, certificate: &Certificate) -> Option<Fault> {
        let fault = Document01.lacks_own(history, certificate)?;
        fault.2.filter(|e| history.events[*e].answer.is_some()).map(|_| fault)
    }
});

// Channels, replayed and read wrongly.

wrong_rules!(LastSlotUnusable ObjectRules {
    fn full(&self, object: &Object, state: &State) -> bool {
        object.kind == Kind::Channel && state.len() + 1 >= object.capacity()
    }
});

wrong_rules!(OneSlotMore ObjectRules {
    fn full(&self, object: &Object, state: &State) -> bool {
        object.kind == Kind::Channel && state.len() > object.capacity()
    }
});

wrong_rules!(OneSlotMoreOfSixtyThree ObjectRules {
    fn full(&self, object: &Object, state: &State) -> bool {
        object.kind == Kind::Channel && state.len() >= object.capacity() + usize::from(object.capacity() == 63)
    }
});

wrong_rules!(NeverFull ObjectRules {
    fn full(&self, _: &Object, _: &State) -> bool {
        false
    }
});

wrong_rules!(EightSlotsAtMost ObjectRules {
    fn full(&self, object: &Object, state: &State) -> bool {
        object.kind == Kind::Channel && state.len() >= object.capacity().min(8)
    }
});

wrong_rules!(RefusedIsKept ObjectRules {
    fn act(&self, object: &Object, state: &mut State, op: Op, value: Option<u64>) -> Vec<u64> {
        let refused = op == Op::Push && self.full(object, state);
        let answer = Document01.act(object, state, op, value);
        if refused {
            state.extend(value);
        }
        answer
    }
});

wrong_rules!(RefusedAnswersNothing ObjectRules {
    fn act(&self, object: &Object, state: &mut State, op: Op, value: Option<u64>) -> Vec<u64> {
        let answer = Document01.act(object, state, op, value);
        if op == Op::Push { vec![] } else { answer }
    }
});

wrong_rules!(RefusedDropsOldest ObjectRules {
    fn act(&self, object: &Object, state: &mut State, op: Op, value: Option<u64>) -> Vec<u64> {
        if op == Op::Push && self.full(object, state) {
            state.remove(0);
            state.extend(value);
            return value.into_iter().collect();
        }
        Document01.act(object, state, op, value)
    }
});

wrong_rules!(RefusedAnswersOldest ObjectRules {
    fn act(&self, object: &Object, state: &mut State, op: Op, value: Option<u64>) -> Vec<u64> {
        let oldest = state.first().copied();
        let refused = op == Op::Push && self.full(object, state);
        let answer = Document01.act(object, state, op, value);
        if refused { oldest.into_iter().collect() } else { answer }
    }
});

wrong_rules!(ChannelAsStack ObjectRules {
    fn act(&self, object: &Object, state: &mut State, op: Op, value: Option<u64>) -> Vec<u64> {
        let turned = object.kind == Kind::Channel && op != Op::Push;
        let kind = if turned { Kind::Stack } else { object.kind };
        Document01.act(&Object { kind, width: object.width }, state, op, value)
    }
});

wrong_rules!(TakenAnswersValue ObjectRules {
    fn act(&self, object: &Object, state: &mut State, op: Op, value: Option<u64>) -> Vec<u64> {
        let answer = Document01.act(object, state, op, value);
        if op == Op::Push && object.kind == Kind::Channel { value.into_iter().collect() } else { answer }
    }
});

wrong_rules!(PushesNeverAsked CheckRules {
    fn differs(&self, event: &Event, given: &[u64]) -> bool {
        event.op != Op::Push && Document01.differs(event, given)
    }
});

wrong_rules!(PushesAskedByLength CheckRules {
    fn differs(&self, event: &Event, given: &[u64]) -> bool {
        match &event.answer {
            Some(answer) if event.op == Op::Push => answer.len() != given.len(),
            _ => Document01.differs(event, given),
        }
    }
});

wrong_rules!(RefusedByTheRecord CheckRules {
    fn replay(&self, history: &History, order: &[usize], visible: &dyn Fn(usize) -> bool) -> Option<usize> {
        // What was recorded as refused has no effect, whatever the channel holds in this view.
        let refused = |event: &Event| event.op == Op::Push && event.answer.as_ref().is_some_and(|list| list.len() == 1);
        let kept: Vec<usize> = order.iter().copied().filter(|e| visible(*e) || !refused(&history.events[*e])).collect();
        Document01.replay(history, &kept, visible)
    }
});

wrong_rules!(TakenByTheRecord CheckRules {
    fn replay(&self, history: &History, order: &[usize], visible: &dyn Fn(usize) -> bool) -> Option<usize> {
        // What was recorded as taken goes in, whatever the channel holds in this view.
        replay_with(history, order, visible, &|e| history.events[e].answer == Some(vec![]))
    }
});

wrong_rules!(UnseenPushesGoIn CheckRules {
    fn replay(&self, history: &History, order: &[usize], visible: &dyn Fn(usize) -> bool) -> Option<usize> {
        replay_with(history, order, visible, &|e| !visible(e))
    }
});

wrong_rules!(LostPushesGoIn CheckRules {
    fn replay(&self, history: &History, order: &[usize], visible: &dyn Fn(usize) -> bool) -> Option<usize> {
        replay_with(history, order, visible, &|e| history.events[e].answer.is_none())
    }
});

/// A replay in which `act` says what an event does to its object and answers.
fn replay_by(
    history: &History,
    order: &[usize],
    visible: &dyn Fn(usize) -> bool,
    act: &mut dyn FnMut(usize, &Object, &mut State) -> Vec<u64>,
) -> Option<usize> {
    let mut states: Vec<State> = history.objects.iter().map(|object| object.start()).collect();
    for e in order {
        let event = &history.events[*e];
        let answer = act(*e, &history.objects[event.object], &mut states[event.object]);
        if visible(*e) && Document01.differs(event, &answer) {
            return Some(*e);
        }
    }
    None
}

/// A replay in which some pushes go in though the channel is full. A visible one is asked as it should be.
fn replay_with(
    history: &History,
    order: &[usize],
    visible: &dyn Fn(usize) -> bool,
    goes_in: &dyn Fn(usize) -> bool,
) -> Option<usize> {
    replay_by(history, order, visible, &mut |e, object, state| {
        let event = &history.events[e];
        let forced = event.op == Op::Push && Document01.full(object, state) && goes_in(e);
        let answer = Document01.act(object, state, event.op, event.value);
        if forced {
            state.extend(event.value);
        }
        answer
    })
}

wrong_rules!(PopsFreeNoSlot CheckRules {
    fn replay(&self, history: &History, order: &[usize], visible: &dyn Fn(usize) -> bool) -> Option<usize> {
        // Full by the pushes taken so far, whatever was popped since.
        let mut taken = vec![0; history.objects.len()];
        replay_by(history, order, visible, &mut |e, object, state| {
            let event = &history.events[e];
            let push = event.op == Op::Push && object.kind == Kind::Channel;
            if push && taken[event.object] >= object.capacity() {
                return event.value.into_iter().collect();
            }
            taken[event.object] += usize::from(push);
            Document01.act(object, state, event.op, event.value)
        })
    }
});

/// A checker in which all objects of the kind have the width of the first.
macro_rules! one_width_for_all {
    ($name:ident, $kind:expr) => {
        wrong_rules!($name CheckRules {
            fn replay(&self, history: &History, order: &[usize], visible: &dyn Fn(usize) -> bool) -> Option<usize> {
                let mut changed = history.clone();
                let first = history.objects.iter().find(|object| object.kind == $kind).and_then(|object| object.width);
                changed.objects.iter_mut().filter(|object| object.kind == $kind).for_each(|object| object.width = first);
                Document01.replay(&changed, order, visible)
            }
        });
    };
}

one_width_for_all!(OneCapacityForAll, Kind::Channel);

wrong_width_limit!(CapacityLimitedByEight, |_| 8);
wrong_width_limit!(CapacityBelowSixtyFour, |kind| if kind == Kind::Channel { 63 } else { 8 });
wrong_width_limit!(CapacitySixtyFiveRead, |kind| if kind == Kind::Channel { 65 } else { 8 });
wrong_width_limit!(WidthsLimitedBySixtyFour, |_| 64);
wrong_width_limit!(WidthsBesideWindowsLimitedBySixtyFour, |kind| if kind == Kind::Window { 8 } else { 64 });

wrong_rules!(CapacityZeroRead HistoryRules {
    fn object_over(&self, fields: &ObjectFields) -> bool {
        let zero = fields.kind == Kind::Channel && fields.width == Some(0);
        !zero && Document01.object_over(fields)
    }
});

wrong_rules!(CapacityWraps HistoryRules {
    fn object_layout(&self, line: &[u8], next: u64) -> Option<ObjectFields> {
        let mut fields = Document01.object_layout(line, next)?;
        if fields.kind == Kind::Channel {
            fields.width = fields.width.map(|width| width % 256);
        }
        Some(fields)
    }
});

wrong_rules!(CapacityLeftOut HistoryRules {
    fn object_layout(&self, line: &[u8], next: u64) -> Option<ObjectFields> {
        // Without a capacity the channel has as many slots as there may be.
        let mut fields = Document01.object_layout(line, next)?;
        if fields.kind == Kind::Channel {
            fields.width = fields.width.or(Some(CAPACITY_LIMIT));
        }
        Some(fields)
    }
});

wrong_rules!(WidthFourBeforeThree HistoryRules {
    fn object_fault(&self, fields: &ObjectFields) -> Option<u32> {
        if self.object_misfit(fields) { Some(4) } else { Document01.object_fault(fields) }
    }
});

wrong_rules!(PushOnChannelAnswersNothing HistoryRules {
    fn event_answer(&self, fields: &EventFields, object: &Object) -> bool {
        let one = fields.op == Op::Push && fields.answer.as_ref().is_some_and(|answer| answer.len() == 1);
        one || Document01.event_answer(fields, object)
    }
});

wrong_rules!(PushOnChannelMustAnswer HistoryRules {
    fn event_answer(&self, fields: &EventFields, object: &Object) -> bool {
        let none = fields.op == Op::Push && fields.answer.as_ref().is_some_and(|answer| answer.is_empty());
        none && object.kind == Kind::Channel || Document01.event_answer(fields, object)
    }
});

wrong_rules!(PushOnQueueAnswers HistoryRules {
    fn event_answer(&self, fields: &EventFields, object: &Object) -> bool {
        let one = fields.op == Op::Push && fields.answer.as_ref().is_some_and(|answer| answer.len() == 1);
        let let_pass = one && object.kind == Kind::Queue;
        !let_pass && Document01.event_answer(fields, object)
    }
});

wrong_rules!(PushOnChannelAnswersTwo HistoryRules {
    fn event_answer(&self, fields: &EventFields, object: &Object) -> bool {
        let two = fields.op == Op::Push && fields.answer.as_ref().is_some_and(|answer| answer.len() == 2);
        let let_pass = two && object.kind == Kind::Channel;
        !let_pass && Document01.event_answer(fields, object)
    }
});

wrong_rules!(PushAnswersItsValueOrFive HistoryRules {
    fn event_answer(&self, fields: &EventFields, object: &Object) -> bool {
        // Reading judges the length alone.
        let other = fields.op == Op::Push && fields.answer.iter().flatten().any(|value| Some(*value) != fields.value);
        other || Document01.event_answer(fields, object)
    }
});

wrong_rules!(ChannelHasRead HistoryRules {
    fn event_misfit(&self, fields: &EventFields, object: &Object) -> bool {
        let let_pass = object.kind == Kind::Channel && fields.op == Op::Read && fields.value.is_none();
        !let_pass && Document01.event_misfit(fields, object)
    }
});

wrong_rules!(ChannelUnknown HistoryRules {
    fn object_layout(&self, line: &[u8], next: u64) -> Option<ObjectFields> {
        Document01.object_layout(line, next).filter(|fields| fields.kind != Kind::Channel)
    }
});

// Windows, replayed and read wrongly.

/// A checker in which windows keep another number of the values written to them, by their width.
macro_rules! wrong_reads {
    ($name:ident, $reads:expr) => {
        wrong_rules!($name ObjectRules {
            fn reads(&self, object: &Object) -> usize {
                let reads: fn(usize) -> usize = $reads;
                if object.kind == Kind::Window { reads(object.reads()) } else { object.reads() }
            }
        });
    };
}

wrong_reads!(OnePlaceMore, |width| width + 1);
wrong_reads!(OnePlaceLess, |width| width - 1);
wrong_reads!(EightPlacesAlways, |_| 8);
wrong_reads!(EightPlacesAsSeven, |width| width.min(7));
wrong_reads!(OnePlaceAlways, |_| 1);

/// A checker in which objects start otherwise.
macro_rules! wrong_start {
    ($name:ident, $start:expr) => {
        wrong_rules!($name ObjectRules {
            fn start(&self, object: &Object) -> State {
                let start: fn(&Object) -> Option<State> = $start;
                start(object).unwrap_or(object.start())
            }
        });
    };
}

wrong_start!(WindowStartsFull, |object| (object.kind == Kind::Window).then(|| vec![0; object.reads()]));
wrong_start!(WindowStartsWithOneZero, |object| (object.kind == Kind::Window).then(|| vec![0]));
wrong_start!(WideWindowStartsFull, |object| (object.width == Some(8)).then(|| vec![0; object.reads()]));
wrong_start!(RegisterStartsEmpty, |object| (object.kind == Kind::Register).then(Vec::new));

wrong_rules!(FirstValuesKept ObjectRules {
    fn act(&self, object: &Object, state: &mut State, op: Op, value: Option<u64>) -> Vec<u64> {
        let full = object.kind == Kind::Window && state.len() == object.reads();
        if full && op == Op::Write { vec![] } else { Document01.act(object, state, op, value) }
    }
});

wrong_rules!(NewestReplaced ObjectRules {
    fn act(&self, object: &Object, state: &mut State, op: Op, value: Option<u64>) -> Vec<u64> {
        if object.kind == Kind::Window && op == Op::Write && state.len() == object.reads() {
            state.pop();
        }
        Document01.act(object, state, op, value)
    }
});

wrong_rules!(ReadTakesValues ObjectRules {
    fn act(&self, object: &Object, state: &mut State, op: Op, value: Option<u64>) -> Vec<u64> {
        let answer = Document01.act(object, state, op, value);
        if object.kind == Kind::Window && op == Op::Read {
            state.clear();
        }
        answer
    }
});

wrong_rules!(SameValueWrittenOnce ObjectRules {
    fn act(&self, object: &Object, state: &mut State, op: Op, value: Option<u64>) -> Vec<u64> {
        if object.kind == Kind::Window && op == Op::Write && state.last().copied() == value {
            return vec![];
        }
        Document01.act(object, state, op, value)
    }
});

wrong_rules!(OldestPlaceOverwritten CheckRules {
    fn replay(&self, history: &History, order: &[usize], visible: &dyn Fn(usize) -> bool) -> Option<usize> {
        // A write goes to the oldest place, and a read goes over the places in their own order.
        let mut writes = vec![0; history.objects.len()];
        replay_by(history, order, visible, &mut |e, object, state| {
            let event = &history.events[e];
            let place = writes[event.object] % object.reads();
            if object.kind == Kind::Window && event.op == Op::Write && state.len() == object.reads() {
                writes[event.object] += 1;
                state[place] = event.value.expect("a write has a value");
                return vec![];
            }
            Document01.act(object, state, event.op, event.value)
        })
    }
});

one_width_for_all!(OneWidthForAll, Kind::Window);

wrong_rules!(EmptyReadsUnasked CheckRules {
    fn differs(&self, event: &Event, given: &[u64]) -> bool {
        let unasked = event.op == Op::Read && event.answer.as_ref().is_some_and(|answer| answer.is_empty());
        !unasked && Document01.differs(event, given)
    }
});

wrong_rules!(ZerosInFrontLetPass CheckRules {
    fn differs(&self, event: &Event, given: &[u64]) -> bool {
        // A text of before T-04 has the zeros that a window started with.
        let without = |answer: &[u64]| answer.iter().copied().skip_while(|value| *value == 0).collect::<Vec<u64>>();
        match &event.answer {
            Some(answer) if event.op == Op::Read && answer.len() > given.len() => without(answer) != without(given),
            _ => Document01.differs(event, given),
        }
    }
});

wrong_rules!(NewestAreEnough CheckRules {
    fn differs(&self, event: &Event, given: &[u64]) -> bool {
        match &event.answer {
            Some(answer) if event.op == Op::Read => !given.ends_with(answer),
            _ => Document01.differs(event, given),
        }
    }
});

wrong_rules!(ReadsAskedByLength CheckRules {
    fn differs(&self, event: &Event, given: &[u64]) -> bool {
        match &event.answer {
            Some(answer) if event.op == Op::Read && given.len() > 1 => answer.len() != given.len(),
            _ => Document01.differs(event, given),
        }
    }
});

/// A checker that has 5 for other lengths of the answers of reads: by the object and the length, or as it should be.
macro_rules! wrong_read_length {
    ($name:ident, $five:expr) => {
        wrong_rules!($name HistoryRules {
            fn event_answer(&self, fields: &EventFields, object: &Object) -> bool {
                let five: fn(&Object, usize) -> Option<bool> = $five;
                let stated = match &fields.answer {
                    Some(answer) if fields.op == Op::Read => five(object, answer.len()),
                    _ => None,
                };
                stated.unwrap_or(Document01.event_answer(fields, object))
            }
        });
    };
}

wrong_read_length!(ShortReadIsFive, |object, length| (object.kind == Kind::Window).then(|| length != object.reads()));
wrong_read_length!(EmptyReadIsFive, |object, length| (object.kind == Kind::Window && length == 0).then_some(true));
wrong_read_length!(LongReadIsRead, |object, length| (object.kind == Kind::Window && length == object.reads() + 1).then_some(false));
wrong_read_length!(EightValuesAreRead, |object, length| (object.kind == Kind::Window && length <= 8).then_some(false));
wrong_read_length!(FullReadIsFive, |object, length| (object.width == Some(8) && length == 8).then_some(true));
wrong_read_length!(EmptyReadOfRegister, |object, length| (object.kind == Kind::Register && length == 0).then_some(false));

// The lines that faults carry, wrongly.

/// A checker in which faults carry another line: by the text, its record, the fault, and the line that it should carry.
macro_rules! wrong_line {
    ($name:ident, $line:expr) => {
        wrong_rules!($name Rules {
            fn line_of_fault(&self, text: &[u8], history: &History, fault: Fault) -> Option<Carried> {
                let line: fn(&[u8], &History, Fault, Option<Carried>) -> Option<Carried> = $line;
                line(text, history, fault, Document01.line_of_fault(text, history, fault))
            }
        });
    };
}

/// A checker in which faults carry their line with something of it changed, by the text and its record.
macro_rules! changed_line {
    ($name:ident, $change:expr) => {
        wrong_line!($name, |text, history, _, right| {
            let change: fn(&[u8], &History, &mut Carried) = $change;
            let mut line = right?;
            change(text, history, &mut line);
            Some(line)
        });
    };
}

/// An event's line with its number, if there is such an event.
fn line_of(text: &[u8], history: &History, event: usize) -> Option<Carried> {
    Document01.line_of_fault(text, history, (16, None, Some(event)))
}

wrong_line!(NoLineOnSixteen, |_, _, fault, right| right.filter(|_| fault.0 != 16));
wrong_line!(NoLineOnEleven, |_, _, fault, right| right.filter(|_| fault.0 != 11));
wrong_line!(NoLineOnTwelve, |_, _, fault, right| right.filter(|_| fault.0 != 12));
wrong_line!(NoLineOnThirteen, |_, _, fault, right| right.filter(|_| fault.0 != 13));
wrong_line!(NoLineAtTheLastEvent, |_, history, fault, right| right.filter(|_| fault.2 != history.events.len().checked_sub(1)));
// 14, 15 and 20 have a view and no event.
wrong_line!(LineOnFourteen, |text, history, fault, right| if fault.0 == 14 { line_of(text, history, fault.1?) } else { right });
wrong_line!(LineOnFifteen, |text, history, fault, right| if fault.0 == 15 { line_of(text, history, fault.1?) } else { right });
wrong_line!(LineOnTwenty, |text, history, fault, right| if fault.0 == 20 { line_of(text, history, fault.1?) } else { right });
wrong_line!(LineOfTheNextEvent, |text, history, fault, right| line_of(text, history, fault.2? + 1).or(right));
wrong_line!(LineOfTheEventBefore, |text, history, fault, right| line_of(text, history, fault.2?.wrapping_sub(1)).or(right));
wrong_line!(LineOfTheObject, |text, history, fault, right| {
    let right = right?;
    // The object with the event's number, if there is one: its line begins with the same number.
    let object = fault.2.filter(|number| *number < history.objects.len());
    let line = object.map(|number| lines_of(text)[number + 1]);
    Some(line.map_or(right, |line| Carried { text: Text::History, line: line.number, start: line.start, length: line.length }))
});
wrong_line!(LineWithTheNext, |text, history, fault, right| {
    let right = right?;
    let next = line_of(text, history, fault.2? + 1);
    Some(Carried { length: next.map_or(right.length, |next| next.start + next.length - right.start), ..right })
});
wrong_line!(LineOfTheView, |text, history, fault, right| match (fault.1, right) {
    (Some(view), Some(_)) => line_of(text, history, view).or(right),
    _ => right,
});

changed_line!(LineNumberTooHigh, |_, _, line| line.line += 1);
changed_line!(LineNumberTooLow, |_, _, line| line.line -= 1);
changed_line!(LineNumberWithoutObjects, |_, history, line| line.line -= history.objects.len());
changed_line!(LineNumberOfOneObject, |_, history, line| line.line = line.line - history.objects.len() + 1);
changed_line!(LineNumberOfFifteenObjects, |_, history, line| line.line -= history.objects.len() / 16);
changed_line!(LineNumberAmongEvents, |_, history, line| line.line -= history.objects.len() + 2);
changed_line!(LineInTheCertificate, |_, _, line| line.text = Text::Certificate);
changed_line!(LineWithLineFeed, |_, _, line| line.length += 1);
changed_line!(LineWithLineFeedBefore, |_, _, line| line.start -= 1);
changed_line!(LineWithoutItsLastByte, |_, _, line| line.length -= 1);
changed_line!(EndForLength, |_, _, line| line.length += line.start);
changed_line!(EndForStart, |_, _, line| line.start += line.length);
changed_line!(StartAsByte, |_, _, line| line.start %= 256);
changed_line!(StartBehindHeading, |text, _, line| line.start -= line_of_event(text, 0).map_or(0, |first| first.start));
changed_line!(PartWithoutObjects, |text, history, line| {
    let other = lines_of(text)[line.line - history.objects.len() - 1];
    (line.start, line.length) = (other.start, other.length);
});

// Strict, read, checked and weakened wrongly.

/// The rules of strict, each an entry that a wrong checker replaces.
struct StrictRules {
    /// The faults of the check, in their order.
    faults: &'static [u32],
    /// The same in weakening.
    refusals: &'static [u32],
    /// Is 20 asked under the criterion?
    asked: fn(Criterion) -> bool,
    /// The views in the order in which 20 looks at them.
    views: fn(&[View]) -> Vec<View>,
    /// Is the event one of those of the view that 20 asks about?
    own: fn(&History, &View, usize) -> bool,
    /// Of the places of these events in the view, those that 20 looks at.
    places: fn(&[usize]) -> &[usize],
    /// Is something wrong with what stands before this place of the view?
    outside: fn(&Certificate, &View, usize) -> bool,
    /// The view and the event that 20 carries, for the view with this number.
    carried: fn(&History, &Certificate, usize) -> (Option<usize>, Option<usize>),
    /// Does one event come before another in the order that the views of strict extend?
    before: fn(&History, &Certificate, usize, usize) -> bool,
    /// Is an answer visible in a view of strict, by whether it is one of the view's process?
    visible: fn(bool) -> bool,
    /// The numbers of the views of strict.
    numbers: fn(&History) -> Vec<usize>,
    /// Has strict the heading and the lines of the pasts?
    pasts: fn(&History) -> bool,
    /// The number for which a wanted one is taken.
    wanted: fn(u32) -> Option<u32>,
    /// A pair that there is, or is not.
    pair: Option<(Criterion, Criterion, bool)>,
    /// The view of an event that strict is weakened to, by the history and the views that were given.
    part: fn(&History, &[View], usize) -> List,
    /// What becomes of a weakened certificate, by the history and the one that was given.
    weakened: fn(&History, &Certificate, &mut Certificate),
}

const RIGHT: StrictRules = StrictRules {
    faults: &[11, 12, 13, 14, 15, 20, 16],
    refusals: &[11, 12, 13, 14, 15, 20, 16],
    asked: |criterion| criterion == Criterion::Strict,
    views: |views| views.to_vec(),
    own: |history, view, event| history.events[event].process == view.number,
    places: |places| places,
    outside: |certificate, view, place| Document01.has_outside_past(certificate, view, place),
    carried: |_, _, number| (Some(number), None),
    before: |history, certificate, a, b| Document01.before(history, certificate, a, b),
    visible: |own| own,
    numbers: |history| history.processes(),
    pasts: |_| true,
    wanted: Some,
    pair: None,
    part: |history, views, e| up_to(&view_of(history, views, e).order, e),
    weakened: |_, _, _| {},
};

impl ObjectRules for StrictRules {}
impl NumberRules for StrictRules {}
impl HistoryRules for StrictRules {}

impl CertificateRules for StrictRules {
    fn has_pasts(&self, criterion: Criterion, history: &History) -> bool {
        criterion.has_pasts() && (criterion != Criterion::Strict || (self.pasts)(history))
    }

    fn view_numbers(&self, criterion: Criterion, history: &History) -> Vec<usize> {
        if criterion == Criterion::Strict { (self.numbers)(history) } else { criterion.view_numbers(history) }
    }
}

impl CheckRules for StrictRules {
    fn before(&self, history: &History, certificate: &Certificate, a: usize, b: usize) -> bool {
        let strict = certificate.criterion == Criterion::Strict;
        if strict { (self.before)(history, certificate, a, b) } else { Document01.before(history, certificate, a, b) }
    }

    fn breaks_past(&self, history: &History, certificate: &Certificate, view: &View) -> bool {
        let own = |place: &usize| (self.own)(history, view, view.order[*place]);
        let places: List = (0..view.order.len()).filter(own).collect();
        (self.places)(&places).iter().any(|place| (self.outside)(certificate, view, *place))
    }

    fn outside_past(&self, history: &History, certificate: &Certificate) -> Option<Fault> {
        if !(self.asked)(certificate.criterion) {
            return None;
        }
        let views = (self.views)(&certificate.views);
        let view = views.iter().find(|view| self.breaks_past(history, certificate, view))?;
        let (view, event) = (self.carried)(history, certificate, view.number);
        Some((20, view, event))
    }

    fn visible(&self, history: &History, certificate: &Certificate, view: &View, event: usize) -> bool {
        let right = Document01.visible(history, certificate, view, event);
        if certificate.criterion == Criterion::Strict { (self.visible)(right) } else { right }
    }

    fn fault(&self, history: &History, certificate: &Certificate) -> Option<Fault> {
        first_of(self, self.faults, history, certificate)
    }
}

impl Rules for StrictRules {
    fn wanted(&self, number: u32) -> Option<Criterion> {
        Document01.wanted((self.wanted)(number)?)
    }

    fn is_pair(&self, given: Criterion, wanted: Criterion) -> bool {
        match self.pair {
            Some((from, to, pair)) if (from, to) == (given, wanted) => pair,
            _ => Document01.is_pair(given, wanted),
        }
    }

    /// What isn't a pair of the list is left as it is.
    fn weakened(&self, history: &History, certificate: &Certificate, wanted: Criterion) -> Option<Certificate> {
        let mut weaker = Document01.weakened(history, certificate, wanted).unwrap_or(certificate.clone());
        if certificate.criterion == Criterion::Strict && matches!(weaker.criterion, Criterion::Causal | Criterion::Weak) {
            weaker.views.iter_mut().for_each(|view| view.order = (self.part)(history, &certificate.views, view.number));
        }
        (self.weakened)(history, certificate, &mut weaker);
        Some(weaker)
    }

    fn refusal(&self, history: &History, certificate: &Certificate) -> u32 {
        first_of(self, self.refusals, history, certificate).map_or(0, |fault| fault.0)
    }
}

/// The same faults in another order, in the check and in weakening.
const fn in_order(order: &'static [u32]) -> StrictRules {
    StrictRules { faults: order, refusals: order, ..RIGHT }
}

/// One pair more, or less.
const fn with_pair(given: Criterion, wanted: Criterion, pair: bool) -> StrictRules {
    StrictRules { pair: Some((given, wanted, pair)), ..RIGHT }
}

/// Other lists where strict is weakened.
const fn weakened_to(weakened: fn(&History, &Certificate, &mut Certificate)) -> StrictRules {
    StrictRules { weakened, ..RIGHT }
}

/// The order up to and with the event, or all of it if it lacks the event.
fn up_to(order: &[usize], e: usize) -> List {
    let end = order.iter().position(|event| *event == e).map_or(order.len(), |place| place + 1);
    order[..end].to_vec()
}

/// The view of the event's process.
fn view_of<'v>(history: &History, views: &'v [View], e: usize) -> &'v View {
    views.iter().find(|view| view.number == history.events[e].process).expect("the process has a view")
}

/// The first event of a process.
fn first_event(history: &History, process: usize) -> Option<usize> {
    history.events.iter().position(|event| event.process == process)
}

/// Wrong checkers of strict with what is wrong with them.
fn wrong_of_strict() -> Vec<(&'static str, StrictRules)> {
    use Criterion::{Causal, Converge, Pram, Sequential, Strict, Weak};
    let of_twenty = |carried| StrictRules { carried, ..RIGHT };
    let numbered = |numbers| StrictRules { numbers, ..RIGHT };
    let own = |own| StrictRules { own, ..RIGHT };
    let outside = |outside| StrictRules { outside, ..RIGHT };
    let asking = |places| StrictRules { places, ..RIGHT };
    let seeing = |visible| StrictRules { visible, ..RIGHT };
    let wanting = |wanted| StrictRules { wanted, ..RIGHT };
    let part = |part| StrictRules { part, ..RIGHT };
    vec![
        ("there is no 20", in_order(&[11, 12, 13, 14, 15, 16])),
        ("20 after 16", in_order(&[11, 12, 13, 14, 15, 16, 20])),
        ("20 before 15", in_order(&[11, 12, 13, 14, 20, 15, 16])),
        ("20 before 14", in_order(&[11, 12, 13, 20, 14, 15, 16])),
        ("20 before 11", in_order(&[20, 11, 12, 13, 14, 15, 16])),
        ("weakening has no 20", StrictRules { refusals: &[11, 12, 13, 14, 15, 16], ..RIGHT }),
        ("weakening has 20 after 16", StrictRules { refusals: &[11, 12, 13, 14, 15, 16, 20], ..RIGHT }),
        ("weakening has 20 before 15", StrictRules { refusals: &[11, 12, 13, 14, 20, 15, 16], ..RIGHT }),
        ("20 under every criterion that has pasts", StrictRules { asked: |criterion| criterion.has_pasts(), ..RIGHT }),
        ("20 names the highest view", StrictRules { views: |views| views.iter().rev().cloned().collect(), ..RIGHT }),
        ("20 looks at the first view only", StrictRules { views: |views| views.iter().take(1).cloned().collect(), ..RIGHT }),
        ("20 asks what stands before every event of the view", own(|_, _, _| true)),
        (
            "20 asks what stands before the other processes' events",
            own(|history, view, event| history.events[event].process != view.number),
        ),
        ("20 asks only what stands before the first own event", asking(|places| &places[..places.len().min(1)])),
        ("20 asks only what stands before the last own event", asking(|places| &places[places.len().saturating_sub(1)..])),
        (
            "20 asks only for the event right before",
            outside(|certificate, view, place| {
                place > 0 && !certificate.pasts[view.order[place]].contains(&view.order[place - 1])
            }),
        ),
        (
            "20 asks only for the event that stands first",
            outside(|certificate, view, place| {
                place > 0 && !certificate.pasts[view.order[place]].contains(&view.order[0])
            }),
        ),
        (
            "20 carries the place of the view and not its process",
            of_twenty(|_, certificate, number| (certificate.views.iter().position(|view| view.number == number), None)),
        ),
        (
            "20 carries the number of an event as its view",
            of_twenty(|history, _, number| (first_event(history, number), None)),
        ),
        ("20 carries an event", of_twenty(|history, _, number| (Some(number), first_event(history, number)))),
        ("20 carries no view", of_twenty(|_, _, _| (None, None))),
        (
            "the views of strict need only extend program order",
            StrictRules { before: |history, _, a, b| history.program_order(a, b), ..RIGHT },
        ),
        ("all answers are visible in the views of strict", seeing(|_| true)),
        ("no answer is visible in the views of strict", seeing(|_| false)),
        (
            "the views of strict are counted and not numbered by process",
            numbered(|history| (0..history.processes().len()).collect()),
        ),
        ("strict has a view an event", numbered(|history| Causal.view_numbers(history))),
        ("strict has one view", numbered(|_| vec![0])),
        ("strict has a view for processes without events", numbered(|_| (0..8).collect())),
        (
            "strict without events has a view line",
            numbered(|history| if history.events.is_empty() { vec![0] } else { history.processes() }),
        ),
        (
            "strict without events lacks the heading of the pasts",
            StrictRules { pasts: |history| !history.events.is_empty(), ..RIGHT },
        ),
        (
            "weakening takes the view at the event's number",
            part(|_, views, e| up_to(&views[e.min(views.len() - 1)].order, e)),
        ),
        (
            "weakening takes the view at the process's number",
            part(|history, views, e| up_to(&views[history.events[e].process.min(views.len() - 1)].order, e)),
        ),
        ("weakening takes the first view of strict", part(|_, views, e| up_to(&views[0].order, e))),
        (
            "weakening cuts the view before the event",
            part(|history, views, e| (RIGHT.part)(history, views, e).into_iter().filter(|event| *event != e).collect()),
        ),
        (
            "weakening takes the whole view for its part",
            part(|history, views, e| view_of(history, views, e).order.clone()),
        ),
        (
            "weakening makes the part of the view rise",
            part(|history, views, e| {
                let mut part = (RIGHT.part)(history, views, e);
                part.sort_unstable();
                part
            }),
        ),
        (
            "weakening cuts the pasts of strict to program order",
            weakened_to(|history, given, weaker| {
                if given.criterion == Strict {
                    weaker.pasts.iter_mut().enumerate().for_each(|(e, past)| past.retain(|f| history.program_order(*f, e)));
                }
            }),
        ),
        (
            "weakening from sequential to strict takes parts of the order",
            weakened_to(|history, given, weaker| {
                if (given.criterion, weaker.criterion) == (Sequential, Strict) {
                    for view in &mut weaker.views {
                        let own = |event: &usize| history.events[*event].process == view.number;
                        let end = view.order.iter().rposition(own).map_or(0, |place| place + 1);
                        view.order.truncate(end);
                    }
                }
            }),
        ),
        (
            "weakening from strict to pram makes the others rise",
            weakened_to(|history, given, weaker| {
                if (given.criterion, weaker.criterion) == (Strict, Pram) {
                    for view in &mut weaker.views {
                        let own = |event: &usize| history.events[*event].process == view.number;
                        let end = view.order.iter().rposition(own).map_or(0, |place| place + 1);
                        view.order[end..].sort_unstable();
                    }
                }
            }),
        ),
        ("strict is not weakened to itself", with_pair(Strict, Strict, false)),
        ("sequential is not weakened to strict", with_pair(Sequential, Strict, false)),
        ("strict is not weakened to causal", with_pair(Strict, Causal, false)),
        ("strict is not weakened to weak", with_pair(Strict, Weak, false)),
        ("strict is not weakened to pram", with_pair(Strict, Pram, false)),
        ("strict is weakened to converge", with_pair(Strict, Converge, true)),
        ("strict is weakened to sequential", with_pair(Strict, Sequential, true)),
        ("causal is weakened to strict", with_pair(Causal, Strict, true)),
        ("pram is weakened to strict", with_pair(Pram, Strict, true)),
        ("17 for 5", wanting(|number| (number < 5).then_some(number))),
        ("6 is wanted for strict", wanting(|number| Some(if number == 6 { 5 } else { number }))),
        ("5 is wanted for sequential", wanting(|number| Some(if number == 5 { 4 } else { number }))),
    ]
}

wrong_rules!(TwentyOfEachViewBeforeFifteenOfTheNext CheckRules {
    fn against(&self, history: &History, certificate: &Certificate) -> Option<Fault> {
        certificate.views.iter().find_map(|view| {
            let only = Certificate { views: vec![view.clone()], ..certificate.clone() };
            first_of(&Document01, &[15, 20], history, &only)
        })
    }
});

wrong_rules!(StrictUnknown CertificateRules {
    fn read_certificate(&self, history: &History, text: &[u8]) -> Result<Certificate, Refusal> {
        let first = lines_of(text).into_iter().next().filter(|line| line.of(text) == b"criterion strict");
        match first {
            Some(line) if text.len() <= CERTIFICATE_LIMIT => Err(Refusal::faulty(2, Text::Certificate, &line)),
            _ => Document01.read_certificate(history, text),
        }
    }
});

/// What is spoilt of what the archive gives.
#[derive(Clone, Copy, PartialEq, Eq, Debug)]
pub enum Spoil {
    EventOffByOne,
    ViewOffByOne,
    ViewAndEventSwapped,
    LineFromZero,
    PartWithLineFeed,
    EmptyPartWhereItIs,
    MissingAtTheLast,
    CriterionOnRefusal,
    SixPlaces,
    EightPlaces,
    CheckForgetsSixteen,
    ByteOnRefusal,
    LengthOnRefusal,
    LengthLeftOnRefusal,
    EighteenAtExactLength,
    EighteenOneLate,
    ByteBehindTheText,
    ByteBehindTheBuffer,
    RestCleared,
    LineInSevenPlacesOnly,
    PartOfTheCertificate,
    StrictNumberedSix,
    NoCriterionOnTwenty,
    CheckForgetsTwenty,
    WeakenCopies,
    WeakenWantedByte,
    WeakenEighteenAtExactLength,
    WeakenByteOnRefusal,
    WeakenFaultsBeforeSeventeen,
    WeakenMorePairs,
    WeakenOthersFalling,
    LostWrittenAsEmpty,
    CapacityWrittenAsNone,
    CapacityDigitsTurned,
    ShortWrittenToItsEnd,
    LastOf64LeftOut,
    LongListCut,
}

pub struct Spoilt(pub Spoil);

impl Spoilt {
    /// Spoils the lists of a text that was written: each line with its list changed, or a buffer that is too short written up to its
    /// end. `whole` gives the text's length in a buffer that has room. `before` is the buffer as it was lent.
    pub fn lists(&self, answer: u32, before: &Lent<u8>, buffer: &mut Lent<u8>, length: &mut u64, whole: impl Fn(&mut Lent<u8>, &mut u64) -> u32) {
        let change = match self.0 {
            Spoil::LastOf64LeftOut => without_the_last_of_64,
            Spoil::LongListCut => cut_to_128,
            Spoil::ShortWrittenToItsEnd if answer == 18 => {
                let mut larger = Lent::new(40_000, |_| 0u8);
                let mut all = 0;
                whole(&mut larger, &mut all);
                let written = buffer.length;
                buffer.part().copy_from_slice(&larger.part()[..written]);
                return;
            }
            _ => return,
        };
        if answer == 0 {
            let text = buffer.part()[..*length as usize].to_vec();
            let changed: Vec<u8> = text.split_inclusive(|byte| *byte == 10).flat_map(change).collect();
            *buffer = before.clone();
            buffer.part()[..changed.len()].copy_from_slice(&changed);
            *length = changed.len() as u64;
        }
    }

    /// Spoils what a writing gave. `before` is the buffer as it was lent.
    pub fn written(&self, mut answer: u32, before: &Lent<u8>, buffer: &mut Lent<u8>, length: &mut u64) -> u32 {
        match self.0 {
            Spoil::ByteOnRefusal if answer != 0 && buffer.length > 0 => buffer.part()[0] = 0,
            Spoil::LengthOnRefusal if answer != 0 => *length = 1,
            // As the caller had it.
            Spoil::LengthLeftOnRefusal if answer != 0 => *length = 0x5353_5353,
            Spoil::EighteenAtExactLength if answer == 0 && *length == buffer.length as u64 => {
                *buffer = before.clone();
                *length = 0;
                answer = 18;
            }
            Spoil::EighteenOneLate if answer == 18 && buffer.length > 0 => {
                // It can't tell by how much the buffer is too short: it writes as if the text fitted.
                *length = buffer.length as u64;
                answer = 0;
            }
            Spoil::ByteBehindTheText if answer == 0 && (*length as usize) < buffer.length => buffer.part()[*length as usize] = 0,
            Spoil::ByteBehindTheBuffer if answer == 0 => {
                let behind = buffer.start + buffer.length;
                buffer.all[behind] = 0;
            }
            Spoil::RestCleared if answer == 0 => buffer.part()[*length as usize..].fill(0),
            _ => {}
        }
        answer
    }
}

impl Checker for Spoilt {
    fn check(&self, history: &[u8], certificate: &[u8]) -> u32 {
        match (self.0, Archive.check(history, certificate)) {
            (Spoil::CheckForgetsSixteen, 16) | (Spoil::CheckForgetsTwenty, 20) => 0,
            (_, answer) => answer,
        }
    }

    fn verdict(&self, history: &[u8], certificate: &[u8], places: &mut Lent<u32>) -> u32 {
        let lent = places.clone();
        let answer = Archive.verdict(history, certificate, places);
        if places.length < 7 {
            match self.0 {
                Spoil::EightPlaces => places.all[places.start + places.length] = 0,
                Spoil::LineInSevenPlacesOnly if answer >= 11 => {
                    places.part().iter_mut().skip(1).take(1).for_each(|text| *text = 0);
                    places.part().iter_mut().skip(2).take(1).for_each(|line| *line = NONE);
                }
                _ => {}
            }
            return answer;
        }
        let reading = answer < 11;
        let part = places.part();
        match self.0 {
            Spoil::EventOffByOne if part[4] != NONE => part[4] += 1,
            Spoil::ViewOffByOne if part[3] != NONE => part[3] += 1,
            Spoil::ViewAndEventSwapped if answer >= 11 => part.swap(3, 4),
            Spoil::LineFromZero if reading && part[2] != NONE && part[2] > 0 => part[2] -= 1,
            Spoil::PartWithLineFeed if reading && part[6] > 0 => part[6] += 1,
            Spoil::EmptyPartWhereItIs if part[1] != 0 && part[6] == 0 => part[5] = history.len() as u32,
            Spoil::MissingAtTheLast if part[1] == 2 && part[6] == 0 && part[2] as usize > certificate.split(|byte| *byte == 10).count() - 1 => {
                part[2] = part[2].saturating_sub(1);
            }
            Spoil::CriterionOnRefusal if part[1] == 2 && certificate.starts_with(b"criterion weak\n") => part[0] = 1,
            Spoil::PartOfTheCertificate if !reading && part[1] == 1 => {
                let line = faulty_list(certificate, part[3], part[4]);
                (part[1], part[2]) = (2, line.number as u32);
                (part[5], part[6]) = (line.start as u32, line.length as u32);
            }
            Spoil::StrictNumberedSix if part[0] == 5 => part[0] = 6,
            Spoil::NoCriterionOnTwenty if answer == 20 => part[0] = NONE,
            Spoil::SixPlaces => part[6] = lent.all[lent.start + 6],
            Spoil::EightPlaces if places.length > 7 => places.part()[7] = 0,
            _ => {}
        }
        answer
    }

    fn rewrite_history(&self, history: &[u8], buffer: &mut Lent<u8>, length: &mut u64) -> u32 {
        let before = buffer.clone();
        let answer = Archive.rewrite_history(history, buffer, length);
        if self.0 == Spoil::LostWrittenAsEmpty {
            for byte in buffer.part()[..*length as usize].iter_mut().filter(|byte| **byte == b'?') {
                *byte = b'-';
            }
        }
        // The lines of channels with a capacity of one digit, or of two.
        let text = buffer.part()[..*length as usize].to_vec();
        for at in (0..text.len()).filter(|at| text[*at..].starts_with(b" channel ")) {
            let digits = text[at + 9..].iter().take_while(|byte| byte.is_ascii_digit()).count();
            match self.0 {
                Spoil::CapacityWrittenAsNone if digits == 1 => buffer.part()[at + 9] = b'-',
                Spoil::CapacityDigitsTurned if digits == 2 => buffer.part().swap(at + 9, at + 10),
                _ => {}
            }
        }
        self.lists(answer, &before, buffer, length, |larger, all| Archive.rewrite_history(history, larger, all));
        self.written(answer, &before, buffer, length)
    }

    fn rewrite_certificate(&self, history: &[u8], certificate: &[u8], buffer: &mut Lent<u8>, length: &mut u64) -> u32 {
        let before = buffer.clone();
        let answer = Archive.rewrite_certificate(history, certificate, buffer, length);
        self.lists(answer, &before, buffer, length, |larger, all| Archive.rewrite_certificate(history, certificate, larger, all));
        self.written(answer, &before, buffer, length)
    }

    fn weaken(&self, history: &[u8], certificate: &[u8], wanted: u32, buffer: &mut Lent<u8>, length: &mut u64) -> u32 {
        let before = buffer.clone();
        let given = if self.0 == Spoil::WeakenWantedByte { wanted % 256 } else { wanted };
        let answer = Archive.weaken(history, certificate, given, buffer, length);
        match (self.0, answer) {
            (Spoil::WeakenCopies, 0) => {
                *buffer = before;
                *length = 0;
                Archive.rewrite_certificate(history, certificate, buffer, length)
            }
            (Spoil::WeakenEighteenAtExactLength, 0) if *length == buffer.length as u64 => {
                *buffer = before;
                *length = 0;
                18
            }
            (Spoil::WeakenByteOnRefusal, 18) if buffer.length > 0 => {
                buffer.part()[0] = b'c';
                18
            }
            (Spoil::WeakenFaultsBeforeSeventeen, 17) => match Archive.check(history, certificate) {
                0 => 17,
                answer => answer,
            },
            // converge to pram: the whole order for every process would be refused by the check, but it is written.
            (Spoil::WeakenMorePairs, 17) if wanted == 0 && Archive.check(history, certificate) == 0 => 0,
            (Spoil::WeakenOthersFalling, 0) if wanted == 0 => {
                // The last two entries of each view of the pram text change places.
                let text = buffer.part()[..*length as usize].to_vec();
                let turned: Vec<u8> = text.split_inclusive(|byte| *byte == 10).flat_map(turned_line).collect();
                buffer.part()[..turned.len()].copy_from_slice(&turned);
                0
            }
            (_, answer) => answer,
        }
    }

    fn sequential(&self, history: &[u8], certificate: &[u8], buffer: &mut Lent<u8>, length: &mut u64) -> u32 {
        Archive.sequential(history, certificate, buffer, length)
    }
}

/// The line of a certificate that has the faulty list: the view's, or the event's past where there is no view.
fn faulty_list(certificate: &[u8], view: u32, event: u32) -> Line {
    let lines = lines_of(certificate);
    let begins = |line: &&Line, own: u32| line.of(certificate).starts_with(format!("{own} ").as_bytes());
    // The views come behind the pasts.
    let found = if view == NONE {
        lines.iter().find(|line| begins(line, event))
    } else {
        lines.iter().rev().find(|line| begins(line, view))
    };
    *found.expect("the certificate has that list")
}

/// A line in which a list of 64 numbers lacks its last one.
fn without_the_last_of_64(line: &[u8]) -> Vec<u8> {
    let commas: Vec<usize> = (0..line.len()).filter(|at| line[*at] == b',').collect();
    if commas.len() == 63 { [&line[..commas[62]], b"\n"].concat() } else { line.to_vec() }
}

/// A line in which a list of more than 128 bytes is cut, as by an array of that length between the record and the buffer.
fn cut_to_128(line: &[u8]) -> Vec<u8> {
    let field = line.iter().rposition(|byte| *byte == b' ').map_or(0, |space| space + 1);
    if line.len() - 1 - field > 128 { [&line[..field + 128], b"\n"].concat() } else { line.to_vec() }
}

/// A line of a view with its last two entries in each other's place.
fn turned_line(line: &[u8]) -> Vec<u8> {
    let line = String::from_utf8_lossy(line).into_owned();
    let Some((own, list)) = line.trim_end().split_once(' ') else { return line.into_bytes() };
    let mut entries: Vec<&str> = list.split(',').collect();
    let count = entries.len();
    if count >= 2 {
        entries.swap(count - 2, count - 1);
    }
    format!("{own} {}\n", entries.join(",")).into_bytes()
}

/// All wrong checkers with what is wrong with them.
pub fn wrong_checkers() -> Vec<(&'static str, Box<dyn Checker>)> {
    fn model<R: Rules + 'static>(name: &'static str, rules: R) -> (&'static str, Box<dyn Checker>) {
        (name, Box::new(Model(rules)))
    }
    fn spoilt(name: &'static str, spoil: Spoil) -> (&'static str, Box<dyn Checker>) {
        (name, Box::new(Spoilt(spoil)))
    }
    let mut checkers = vec![
        model("a replay ends one event early", EndsEarly),
        model("another process's pop is left out", LeavesOutPops),
        model("converge is replayed over the whole order", ConvergeWhole),
        model("neighbouring lines are taken for program order", NeighbouringLines),
        model("window answers newest first", NewestFirst),
        model("a queue pops the newest", QueueAsStack),
        model("peek removes", PeekRemoves),
        model("a pop of an empty object answers 0", EmptyAnswersZero),
        model("15 before 14", FifteenFirst),
        model("12 before 11", TwelveFirst),
        model("the last wrong event instead of the first", LastWrong),
        model("the lowest wrong event instead of the first in the view", LowestWrong),
        model("converge names the first e in the view and not the lowest", ConvergeInViewOrder),
        model("converge names the highest e", ConvergeHighest),
        model("each view gets all its faults before the next view", ViewByView),
        model("transitivity is ignored", NotTransitiveIgnored),
        model("13 names the highest event", HighestNotTransitive),
        model("repeats in a view are allowed", RepeatsAllowed),
        model("the replays stop at the first view", FirstViewOnly),
        model("other processes' answers are visible in pram", OthersVisible),
        model("causal sees only e's answer", CausalAsWeak),
        model("views need only extend program order", ViewsByProgramOrder),
        model("everything readable is accepted", AcceptsAll),
        model("everything is rejected", RejectsAll),
        model("65536 wraps to 0", Wraps16),
        model("numbers wrap at 64 bits", Wraps64),
        model("leading zeros are read", LeadingZeros),
        model("a trailing comma is read", TrailingComma),
        model("a text of exactly the limit is too long", LimitIsTooLong),
        model("a text of one byte more than the limit is read", OneMoreByte),
        model("the final line feed may be missing", NoFinalLineFeed),
        model("4 before 3", FourBeforeThree),
        model("5 before 4", FiveBeforeFour),
        model("6 before 3", SixBeforeThree),
        model("a list longer than the history is read", LongListsRead),
        model("pram's views are counted and not numbered by process", ViewsOfPramCounted),
        model("a too long certificate comes before the history's faults", CertificateFirst),
        spoilt("the event is off by one", Spoil::EventOffByOne),
        spoilt("the view is off by one", Spoil::ViewOffByOne),
        spoilt("view and event change places", Spoil::ViewAndEventSwapped),
        spoilt("the faulty line is counted from 0", Spoil::LineFromZero),
        spoilt("the faulty line has its line feed", Spoil::PartWithLineFeed),
        spoilt("an empty part doesn't start at 0", Spoil::EmptyPartWhereItIs),
        spoilt("a missing line has the number of the last", Spoil::MissingAtTheLast),
        spoilt("a reading refusal carries the criterion", Spoil::CriterionOnRefusal),
        spoilt("only six places are filled", Spoil::SixPlaces),
        spoilt("a place past the slice or past the seventh is written", Spoil::EightPlaces),
        spoilt("the check forgets 16 and only the verdict has it", Spoil::CheckForgetsSixteen),
        spoilt("a byte is written on a refusal", Spoil::ByteOnRefusal),
        spoilt("the length isn't 0 on a refusal", Spoil::LengthOnRefusal),
        spoilt("18 for a buffer of exactly the length", Spoil::EighteenAtExactLength),
        spoilt("no 18 for a buffer that is too short", Spoil::EighteenOneLate),
        spoilt("a byte is written behind the text", Spoil::ByteBehindTheText),
        spoilt("a byte is written behind the buffer", Spoil::ByteBehindTheBuffer),
        spoilt("the rest of the buffer is cleared", Spoil::RestCleared),
        spoilt("weakening copies its input", Spoil::WeakenCopies),
        spoilt("weakening takes 256 for 0", Spoil::WeakenWantedByte),
        spoilt("weakening has 18 for a buffer of exactly the length", Spoil::WeakenEighteenAtExactLength),
        spoilt("weakening writes a byte on 18", Spoil::WeakenByteOnRefusal),
        spoilt("weakening has the check's faults before 17", Spoil::WeakenFaultsBeforeSeventeen),
        spoilt("weakening knows more pairs", Spoil::WeakenMorePairs),
        spoilt("weakening to pram ends in another order", Spoil::WeakenOthersFalling),
        model("a lost answer isn't read", LostRefused),
        model("a lost answer is read as the empty one", LostAsEmpty),
        model("a list with ? in it is read as a lost answer", LostInList),
        model("what begins with ? is read as a lost answer", LostByFirstByte),
        model("5 for a lost answer", LostIsFive),
        model("no 4 for the value of an event whose answer is lost", LostBeforeFour),
        model("? is read where a value may be -", LostValue),
        model("a lost answer is wrong wherever it would be visible", LostIsWrong),
        model("a lost answer is wrong under converge alone", LostIsWrongInConverge),
        model("an op whose answer is lost has no effect", LostHasNoEffect),
        model("a replay ends at a lost answer", LostEndsReplay),
        model("an event whose answer is lost may be left out of a view", LostLeftOutOfViews),
        model("no 11 for an event whose answer is lost", LostHasNoPast),
        spoilt("a lost answer is written as the empty one", Spoil::LostWrittenAsEmpty),
        model("the last slot of a channel is not usable", LastSlotUnusable),
        model("a channel has one slot more", OneSlotMore),
        model("a channel of 63 has one slot more", OneSlotMoreOfSixtyThree),
        model("a channel has eight slots at most", EightSlotsAtMost),
        model("a channel is never full", NeverFull),
        model("a refused push answers its value and goes in", RefusedIsKept),
        model("a refused push answers nothing", RefusedAnswersNothing),
        model("a refused push drops the oldest value", RefusedDropsOldest),
        model("a refused push answers the oldest value", RefusedAnswersOldest),
        model("a push onto a channel answers its value though it is taken", TakenAnswersValue),
        model("a channel pops the newest", ChannelAsStack),
        model("the answers of pushes are never asked", PushesNeverAsked),
        model("of the answer of a push only the length is asked", PushesAskedByLength),
        model("a push that was recorded as refused has no effect in other views", RefusedByTheRecord),
        model("a push that was recorded as taken goes in though the channel is full", TakenByTheRecord),
        model("a push whose answer isn't visible goes in though the channel is full", UnseenPushesGoIn),
        model("a push whose answer is lost goes in though the channel is full", LostPushesGoIn),
        model("a pop frees no slot", PopsFreeNoSlot),
        model("all channels have the capacity of the first", OneCapacityForAll),
        model("a capacity is limited by 8", CapacityLimitedByEight),
        model("a capacity of 64 is refused", CapacityBelowSixtyFour),
        model("a capacity of 65 is read", CapacitySixtyFiveRead),
        model("a capacity of 0 is read", CapacityZeroRead),
        model("a capacity wraps at 256", CapacityWraps),
        model("the widths of other kinds are limited by 64", WidthsLimitedBySixtyFour),
        model("the widths of registers, queues and stacks are limited by 64", WidthsBesideWindowsLimitedBySixtyFour),
        model("- is read as the capacity of a channel", CapacityLeftOut),
        model("4 before 3 for a width", WidthFourBeforeThree),
        model("5 for one value as the answer of a channel's push", PushOnChannelAnswersNothing),
        model("5 for no value as the answer of a channel's push", PushOnChannelMustAnswer),
        model("no 5 for one value as the answer of a queue's push", PushOnQueueAnswers),
        model("no 5 for two values as the answer of a channel's push", PushOnChannelAnswersTwo),
        model("5 for another value than the pushed one", PushAnswersItsValueOrFive),
        model("a channel has read", ChannelHasRead),
        model("channels aren't read", ChannelUnknown),
        spoilt("a capacity of one digit is written as -", Spoil::CapacityWrittenAsNone),
        spoilt("the two digits of a capacity change places", Spoil::CapacityDigitsTurned),
        spoilt("a buffer that is too short is written up to its end", Spoil::ShortWrittenToItsEnd),
        spoilt("the last of 64 numbers of a list is not written", Spoil::LastOf64LeftOut),
        spoilt("a list of more than 128 bytes is cut where it is written", Spoil::LongListCut),
        model("a window starts full of zeros", WindowStartsFull),
        model("a window starts with one zero", WindowStartsWithOneZero),
        model("a window of width 8 starts full of zeros", WideWindowStartsFull),
        model("a register starts empty", RegisterStartsEmpty),
        model("a window keeps one value too many", OnePlaceMore),
        model("a window keeps one value too few", OnePlaceLess),
        model("a window keeps eight values whatever its width", EightPlacesAlways),
        model("a window of width 8 keeps seven values", EightPlacesAsSeven),
        model("a window keeps one value whatever its width", OnePlaceAlways),
        model("a window keeps the first values written", FirstValuesKept),
        model("a write to a full window replaces the newest value", NewestReplaced),
        model("a write to a full window goes to the place of the oldest value", OldestPlaceOverwritten),
        model("a read takes a window's values away", ReadTakesValues),
        model("a value written to a window twice in a row is kept once", SameValueWrittenOnce),
        model("all windows have the width of the first", OneWidthForAll),
        model("a read that answers nothing is never wrong", EmptyReadsUnasked),
        model("zeros in front of a read's values are let pass", ZerosInFrontLetPass),
        model("a read may answer the newest values alone", NewestAreEnough),
        model("of a read's answer of more than one value only the length is asked", ReadsAskedByLength),
        model("5 for a read of fewer values than the width", ShortReadIsFive),
        model("5 for a window's read of no value", EmptyReadIsFive),
        model("no 5 for a read of one value more than the width", LongReadIsRead),
        model("no 5 for a window's read of up to eight values", EightValuesAreRead),
        model("5 for a read of eight values", FullReadIsFive),
        model("no 5 for a register's read of no value", EmptyReadOfRegister),
        model("16 carries no line", NoLineOnSixteen),
        model("11 carries no line", NoLineOnEleven),
        model("12 carries no line", NoLineOnTwelve),
        model("13 carries no line", NoLineOnThirteen),
        model("a fault at the last event carries no line", NoLineAtTheLastEvent),
        model("14 carries the line of the event with the view's number", LineOnFourteen),
        model("15 carries the line of the event with the view's number", LineOnFifteen),
        model("20 carries the line of the event with the view's number", LineOnTwenty),
        model("a fault carries the line of the next event", LineOfTheNextEvent),
        model("a fault carries the line of the event before", LineOfTheEventBefore),
        model("a fault carries the line of the event and the next one", LineWithTheNext),
        model("a fault carries the line of the object with the event's number", LineOfTheObject),
        model("16 carries the line of the event with the view's number", LineOfTheView),
        model("the number of the event's line is one too high", LineNumberTooHigh),
        model("the number of the event's line is one too low", LineNumberTooLow),
        model("the number of the event's line leaves the objects out", LineNumberWithoutObjects),
        model("the number of the event's line counts one object always", LineNumberOfOneObject),
        model("the number of the event's line counts 15 objects of 16", LineNumberOfFifteenObjects),
        model("the number of the event's line counts the events alone", LineNumberAmongEvents),
        model("the event's line is said to be in the certificate", LineInTheCertificate),
        model("the event's line has its line feed", LineWithLineFeed),
        model("the event's line starts at the line feed before it", LineWithLineFeedBefore),
        model("the event's line lacks its last byte", LineWithoutItsLastByte),
        model("the end of the event's line stands where its length belongs", EndForLength),
        model("the end of the event's line stands where its start belongs", EndForStart),
        model("where the event's line starts wraps at 256", StartAsByte),
        model("where the event's line starts is counted from the first event", StartBehindHeading),
        model("the part is counted without the lines of the objects", PartWithoutObjects),
        spoilt("a fault carries its list of the certificate", Spoil::PartOfTheCertificate),
        spoilt("the event's line is left out of a slice of fewer places", Spoil::LineInSevenPlacesOnly),
        model("20 of a view before 15 of the next", TwentyOfEachViewBeforeFifteenOfTheNext),
        model("strict is not read", StrictUnknown),
        spoilt("the number of strict is 6", Spoil::StrictNumberedSix),
        spoilt("20 carries no criterion", Spoil::NoCriterionOnTwenty),
        spoilt("the check forgets 20 and only the verdict has it", Spoil::CheckForgetsTwenty),
    ];
    checkers.extend(wrong_of_strict().into_iter().map(|(name, rules)| model(name, rules)));
    checkers.extend(wrong_of_one_line());
    checkers
}
