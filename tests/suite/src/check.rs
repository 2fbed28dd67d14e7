//! The check of a certificate of a history, and what it answers.

use crate::certificate::{Certificate, CertificateRules, Criterion, View, CRITERIA};
use crate::history::{line_of_event, Event, History, HistoryRules};
use crate::objects::{ObjectRules, State};
use crate::texts::{Carried, Refusal, Text};

/// A number for none in the places of a verdict.
pub const NONE: u32 = 0xFFFF_FFFF;

/// The answer number with all that it carries.
#[derive(Clone, Copy, PartialEq, Eq, Debug, Default)]
pub struct Verdict {
    pub answer: u32,
    pub criterion: Option<Criterion>,
    /// The faulty line of a reading refusal, or the line of the event.
    pub carried: Option<Carried>,
    pub view: Option<usize>,
    pub event: Option<usize>,
}

impl Verdict {
    pub fn refused(refusal: Refusal) -> Verdict {
        Verdict { answer: refusal.answer, carried: Some(refusal.carried), ..Verdict::default() }
    }

    /// The seven places in the order that the header gives.
    pub fn places(&self) -> [u32; 7] {
        let number = |place: Option<usize>| place.map_or(NONE, |number| number as u32);
        let text = match self.carried.map(|carried| carried.text) {
            None => 0,
            Some(Text::History) => 1,
            Some(Text::Certificate) => 2,
        };
        [
            self.criterion.map_or(NONE, Criterion::number),
            text,
            number(self.carried.map(|carried| carried.line)),
            number(self.view),
            number(self.event),
            self.carried.map_or(0, |carried| carried.start as u32),
            self.carried.map_or(0, |carried| carried.length as u32),
        ]
    }
}

/// A fault of the check: its number, and its view and event.
pub type Fault = (u32, Option<usize>, Option<usize>);

/// How a certificate is checked. A wrong checker overrides one of these; the defaults are those of the documents.
pub trait CheckRules: ObjectRules {
    /// 11: the lowest e whose past lacks an earlier event of its process.
    fn lacks_own(&self, history: &History, certificate: &Certificate) -> Option<Fault> {
        let lacks = |e: &usize| (0..*e).any(|f| history.program_order(f, *e) && !certificate.pasts[*e].contains(&f));
        (0..certificate.pasts.len()).find(lacks).map(|e| (11, None, Some(e)))
    }

    /// 12: the lowest e in past(e).
    fn in_own_past(&self, certificate: &Certificate) -> Option<Fault> {
        (0..certificate.pasts.len()).find(|e| certificate.pasts[*e].contains(e)).map(|e| (12, None, Some(e)))
    }

    /// 13: the lowest e with f in past(e), g in past(f), g not in past(e).
    fn not_transitive(&self, certificate: &Certificate) -> Option<Fault> {
        let pasts = &certificate.pasts;
        let lacks = |e: &usize| pasts[*e].iter().any(|f| pasts[*f].iter().any(|g| !pasts[*e].contains(g)));
        (0..pasts.len()).find(lacks).map(|e| (13, None, Some(e)))
    }

    /// Is the event in the set that the view orders? All events, or past(e) and e.
    fn in_set(&self, certificate: &Certificate, view: &View, event: usize) -> bool {
        match certificate.criterion {
            Criterion::Sequential | Criterion::Pram | Criterion::Converge | Criterion::Strict => true,
            Criterion::Weak | Criterion::Causal => event == view.number || certificate.pasts[view.number].contains(&event),
        }
    }

    /// Is this view its set, each once?
    fn is_its_set(&self, history: &History, certificate: &Certificate, view: &View) -> bool {
        (0..history.events.len()).all(|event| {
            let times = view.order.iter().filter(|entry| **entry == event).count();
            times == usize::from(self.in_set(certificate, view, event))
        })
    }

    /// 14: the lowest view that isn't its set, each once.
    fn not_its_set(&self, history: &History, certificate: &Certificate) -> Option<Fault> {
        let view = certificate.views.iter().find(|view| !self.is_its_set(history, certificate, view))?;
        Some((14, Some(view.number), None))
    }

    /// Does a come before b in the order that the views extend?
    fn before(&self, history: &History, certificate: &Certificate, a: usize, b: usize) -> bool {
        if certificate.criterion.has_pasts() {
            certificate.pasts[b].contains(&a)
        } else {
            history.program_order(a, b)
        }
    }

    /// 15: the lowest view against its order.
    fn against(&self, history: &History, certificate: &Certificate) -> Option<Fault> {
        let turned = |view: &&View| {
            let order = &view.order;
            (0..order.len()).any(|j| (0..j).any(|i| self.before(history, certificate, order[j], order[i])))
        };
        let view = certificate.views.iter().find(turned)?;
        Some((15, Some(view.number), None))
    }

    /// Does an event outside the past stand before the event at this place of the view?
    fn has_outside_past(&self, certificate: &Certificate, view: &View, place: usize) -> bool {
        let past = &certificate.pasts[view.order[place]];
        view.order[..place].iter().any(|event| !past.contains(event))
    }

    /// Has the view an own event with an event outside its past before it?
    fn breaks_past(&self, history: &History, certificate: &Certificate, view: &View) -> bool {
        let own = |place: &usize| history.events[view.order[*place]].process == view.number;
        (0..view.order.len()).filter(own).any(|place| self.has_outside_past(certificate, view, place))
    }

    /// 20: the lowest view in which an event outside the past stands before an own event.
    fn outside_past(&self, history: &History, certificate: &Certificate) -> Option<Fault> {
        if certificate.criterion != Criterion::Strict {
            return None;
        }
        let view = certificate.views.iter().find(|view| self.breaks_past(history, certificate, view))?;
        Some((20, Some(view.number), None))
    }

    /// Is the event's answer visible in the view?
    fn visible(&self, history: &History, certificate: &Certificate, view: &View, event: usize) -> bool {
        match certificate.criterion {
            Criterion::Sequential => true,
            Criterion::Pram | Criterion::Strict => history.events[event].process == view.number,
            Criterion::Weak => event == view.number,
            Criterion::Causal => history.events[event].process == history.events[view.number].process,
            // The cuts of converge see one event each.
            Criterion::Converge => false,
        }
    }

    /// Does a replay that gives this answer differ from the event's? A lost answer is visible in no view, under any
    /// criterion.
    fn differs(&self, event: &Event, given: &[u64]) -> bool {
        event.answer.as_ref().is_some_and(|answer| answer != given)
    }

    /// Every event of the view changes its object. Gives the first event with a visible answer that the replay doesn't give.
    fn replay(&self, history: &History, order: &[usize], visible: &dyn Fn(usize) -> bool) -> Option<usize> {
        let mut states: Vec<State> = history.objects.iter().map(|object| self.start(object)).collect();
        for e in order {
            let event = &history.events[*e];
            let answer = self.act(&history.objects[event.object], &mut states[event.object], event.op, event.value);
            if visible(*e) && self.differs(event, &answer) {
                return Some(*e);
            }
        }
        None
    }

    /// The view of converge cut down to past(e) and e.
    fn cut(&self, certificate: &Certificate, e: usize) -> Vec<usize> {
        let kept = |event: &usize| *event == e || certificate.pasts[e].contains(event);
        certificate.views[0].order.iter().copied().filter(kept).collect()
    }

    /// The order in which converge looks at the events.
    fn converge_events(&self, history: &History) -> Vec<usize> {
        (0..history.events.len()).collect()
    }

    /// 16: a visible answer that the replay doesn't give.
    fn wrong_answer(&self, history: &History, certificate: &Certificate) -> Option<Fault> {
        if certificate.criterion == Criterion::Converge {
            let wrong = |e: &usize| self.replay(history, &self.cut(certificate, *e), &|event| event == *e).is_some();
            return self.converge_events(history).into_iter().find(wrong).map(|e| (16, Some(0), Some(e)));
        }
        certificate.views.iter().find_map(|view| {
            let event = self.replay(history, &view.order, &|event| self.visible(history, certificate, view, event))?;
            Some((16, Some(view.number), Some(event)))
        })
    }

    /// The faults in order, each over all events or views before the next.
    fn fault(&self, history: &History, certificate: &Certificate) -> Option<Fault> {
        None.or_else(|| self.lacks_own(history, certificate))
            .or_else(|| self.in_own_past(certificate))
            .or_else(|| self.not_transitive(certificate))
            .or_else(|| self.not_its_set(history, certificate))
            .or_else(|| self.against(history, certificate))
            .or_else(|| self.outside_past(history, certificate))
            .or_else(|| self.wrong_answer(history, certificate))
    }

    /// The answer's number for two records.
    fn answer_to(&self, history: &History, certificate: &Certificate) -> u32 {
        self.fault(history, certificate).map_or(0, |fault| fault.0)
    }
}

/// All the rules together, and the check of two texts.
pub trait Rules: HistoryRules + CertificateRules + CheckRules {
    /// Reads both texts: the history's refusals, then the certificate's.
    fn read_both(&self, history: &[u8], certificate: &[u8]) -> Result<(History, Certificate), Refusal> {
        let history = self.read_history(history)?;
        let certificate = self.read_certificate(&history, certificate)?;
        Ok((history, certificate))
    }

    /// 16 carries the line of its event, and 11 to 13 carry theirs: its number is the event's number plus the count of
    /// objects plus 3.
    fn line_of_fault(&self, text: &[u8], history: &History, fault: Fault) -> Option<Carried> {
        let (11..=13 | 16, _, Some(event)) = fault else { return None };
        let line = line_of_event(text, event)?;
        let number = event + history.objects.len() + 3;
        Some(Carried { text: Text::History, line: number, start: line.start, length: line.length })
    }

    fn check_texts(&self, history: &[u8], certificate: &[u8]) -> Verdict {
        let (record, certificate) = match self.read_both(history, certificate) {
            Ok(both) => both,
            Err(refusal) => return Verdict::refused(refusal),
        };
        let fault = self.fault(&record, &certificate).unwrap_or((0, None, None));
        let carried = self.line_of_fault(history, &record, fault);
        let (answer, view, event) = fault;
        Verdict { answer, criterion: Some(certificate.criterion), carried, view, event }
    }

    /// The criterion with the number wanted in weakening.
    fn wanted(&self, number: u32) -> Option<Criterion> {
        CRITERIA.get(number as usize).copied()
    }

    /// Are the two criteria a pair?
    fn is_pair(&self, given: Criterion, wanted: Criterion) -> bool {
        crate::weaken::is_pair(given, wanted)
    }

    /// The weakened certificate of a pair.
    fn weakened(&self, history: &History, certificate: &Certificate, wanted: Criterion) -> Option<Certificate> {
        crate::weaken::weakened(history, certificate, wanted)
    }

    /// The number by which weakening refuses what the check refuses, or 0.
    fn refusal(&self, history: &History, certificate: &Certificate) -> u32 {
        self.answer_to(history, certificate)
    }

    /// One line of stock: the refusal's number, 18 aside, or the sequential text.
    fn sequential(&self, history: &[u8], certificate: &[u8]) -> Result<Vec<u8>, u32> {
        crate::sequential::sequential_texts(self, history, certificate)
    }
}

/// Document 01's rules with those that T-01 to T-06 and T-11 of document 02 change: every default above.
pub struct Document01;

impl ObjectRules for Document01 {}
impl crate::texts::NumberRules for Document01 {}
impl HistoryRules for Document01 {}
impl CertificateRules for Document01 {}
impl CheckRules for Document01 {}
impl Rules for Document01 {}
