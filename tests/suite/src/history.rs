//! The history: its record, and its text read and written.

use crate::objects::{Kind, Object, Op, KINDS, OPS};
use crate::texts::{fields_of, lines_of, list_text, Line, NumberRules, Refusal, Text};

pub const HISTORY_LIMIT: usize = 16_384;
pub const OBJECTS_LIMIT: u64 = 16;
pub const EVENTS_LIMIT: u64 = 64;
pub const PROCESSES: u64 = 8;
pub const VALUE_LIMIT: u64 = 65_535;
pub const WIDTH_LIMIT: u64 = 8;
pub const CAPACITY_LIMIT: u64 = 64;
pub const OBJECT_HEADING: &str = "object kind width";
pub const EVENT_HEADING: &str = "event process object op value answer";

#[derive(Clone, PartialEq, Eq, Debug)]
pub struct Event {
    pub process: usize,
    pub object: usize,
    pub op: Op,
    pub value: Option<u64>,
    /// None when it is lost: it was never recorded.
    pub answer: Option<Vec<u64>>,
}

#[derive(Clone, PartialEq, Eq, Debug, Default)]
pub struct History {
    pub objects: Vec<Object>,
    pub events: Vec<Event>,
}

impl History {
    /// Program order: a comes before b when both are of one process and a has the smaller number.
    pub fn program_order(&self, a: usize, b: usize) -> bool {
        self.events[a].process == self.events[b].process && a < b
    }

    /// Is an answer lost?
    pub fn has_lost(&self) -> bool {
        self.events.iter().any(|event| event.answer.is_none())
    }

    /// The processes with events, rising.
    pub fn processes(&self) -> Vec<usize> {
        (0..PROCESSES as usize).filter(|process| self.events.iter().any(|event| event.process == *process)).collect()
    }

    pub fn text(&self) -> Vec<u8> {
        let mut text = format!("{OBJECT_HEADING}\n");
        for (number, object) in self.objects.iter().enumerate() {
            let width = object.width.map_or("-".to_string(), |width| width.to_string());
            text += &format!("{number} {} {width}\n", object.kind.word());
        }
        text += &format!("{EVENT_HEADING}\n");
        for number in 0..self.events.len() {
            text += &format!("{}\n", self.event_text(number));
        }
        text.into_bytes()
    }

    /// The text of an event's line, without its line feed.
    pub fn event_text(&self, number: usize) -> String {
        let event = &self.events[number];
        let value = event.value.map_or("-".to_string(), |value| value.to_string());
        let answer = event.answer.as_ref().map_or("?".to_string(), |answer| list_text(answer));
        format!("{number} {} {} {} {value} {answer}", event.process, event.object, event.op.word())
    }
}

/// The line of an event in a readable history text, if there is such an event: the lines of the events follow their heading,
/// in the order of their numbers.
pub fn line_of_event(text: &[u8], event: usize) -> Option<Line> {
    let is_heading = |line: &Line| line.of(text) == EVENT_HEADING.as_bytes();
    lines_of(text).into_iter().skip_while(|line| !is_heading(line)).skip(1).nth(event)
}

/// An object line whose layout is right.
pub struct ObjectFields {
    pub own: u64,
    pub kind: Kind,
    pub width: Option<u64>,
}

/// An event line whose layout is right.
pub struct EventFields {
    pub own: u64,
    pub process: u64,
    pub object: u64,
    pub op: Op,
    pub value: Option<u64>,
    /// None when it is lost.
    pub answer: Option<Vec<u64>>,
}

/// How a history text is read. A wrong checker overrides one of these; the defaults are those of the documents.
pub trait HistoryRules: NumberRules {
    /// The fields of object line `next`, unless its layout is faulty.
    fn object_layout(&self, line: &[u8], next: u64) -> Option<ObjectFields> {
        let fields = fields_of(line);
        let [own, kind, width] = fields[..] else { return None };
        let own = self.number(own)?;
        let kind = KINDS.iter().find(|pair| pair.1.as_bytes() == kind)?.0;
        let width = self.number_or_none(width)?;
        (own == next).then_some(ObjectFields { own, kind, width })
    }

    /// The limit of a width: 64 for a channel, 8 on any other kind.
    fn width_limit(&self, kind: Kind) -> u64 {
        if kind == Kind::Channel { CAPACITY_LIMIT } else { WIDTH_LIMIT }
    }

    /// 3: a 17th object, width 0 or over its limit on any kind.
    fn object_over(&self, fields: &ObjectFields) -> bool {
        let limit = self.width_limit(fields.kind);
        fields.own >= OBJECTS_LIMIT || fields.width.is_some_and(|width| width == 0 || width > limit)
    }

    /// 4: a width where `-` belongs, or the reverse.
    fn object_misfit(&self, fields: &ObjectFields) -> bool {
        fields.width.is_some() != fields.kind.has_width()
    }

    /// The order of the faults on an object line, 2 aside.
    fn object_fault(&self, fields: &ObjectFields) -> Option<u32> {
        if self.object_over(fields) {
            return Some(3);
        }
        if self.object_misfit(fields) {
            return Some(4);
        }
        None
    }

    /// Reads object line `next`, or gives its fault.
    fn object_line(&self, line: &[u8], next: u64) -> Result<Object, u32> {
        let fields = self.object_layout(line, next).ok_or(2u32)?;
        if let Some(fault) = self.object_fault(&fields) {
            return Err(fault);
        }
        Ok(Object { kind: fields.kind, width: fields.width.map(|width| width as usize) })
    }

    /// `?` alone when the answer is lost, else a list. The outer None is a misspelling.
    fn answer(&self, field: &[u8]) -> Option<Option<Vec<u64>>> {
        if field == b"?" {
            return Some(None);
        }
        self.list(field).map(Some)
    }

    /// The fields of event line `next`, unless its layout is faulty.
    fn event_layout(&self, line: &[u8], next: u64) -> Option<EventFields> {
        let fields = fields_of(line);
        let [own, process, object, op, value, answer] = fields[..] else { return None };
        let own = self.number(own)?;
        let process = self.number(process)?;
        let object = self.number(object)?;
        let op = OPS.iter().find(|pair| pair.1.as_bytes() == op)?.0;
        let value = self.number_or_none(value)?;
        let answer = self.answer(answer)?;
        (own == next).then_some(EventFields { own, process, object, op, value, answer })
    }

    /// 3: a 65th event, a number over its limit, an undeclared object.
    fn event_over(&self, fields: &EventFields, objects: &[Object]) -> bool {
        fields.own >= EVENTS_LIMIT
            || fields.process >= PROCESSES
            || fields.object >= objects.len() as u64
            || fields.value.is_some_and(|value| value > VALUE_LIMIT)
            || fields.answer.iter().flatten().any(|value| *value > VALUE_LIMIT)
    }

    /// 4: an op that the kind lacks, a value where `-` belongs, or the reverse.
    fn event_misfit(&self, fields: &EventFields, object: &Object) -> bool {
        !object.kind.has(fields.op) || fields.value.is_some() != fields.op.takes_value()
    }

    /// 5: an answer of a length that the op can't give. It doesn't apply to a lost one.
    fn event_answer(&self, fields: &EventFields, object: &Object) -> bool {
        fields.answer.as_ref().is_some_and(|answer| !object.answer_lengths(fields.op).contains(&answer.len()))
    }

    /// The order of the faults on an event line, 2 aside.
    fn event_fault(&self, fields: &EventFields, objects: &[Object]) -> Option<u32> {
        if self.event_over(fields, objects) {
            return Some(3);
        }
        let object = &objects[fields.object as usize];
        if self.event_misfit(fields, object) {
            return Some(4);
        }
        if self.event_answer(fields, object) {
            return Some(5);
        }
        None
    }

    /// Reads event line `next`, or gives its fault.
    fn event_line(&self, line: &[u8], next: u64, objects: &[Object]) -> Result<Event, u32> {
        let fields = self.event_layout(line, next).ok_or(2u32)?;
        if let Some(fault) = self.event_fault(&fields, objects) {
            return Err(fault);
        }
        Ok(Event {
            process: fields.process as usize,
            object: fields.object as usize,
            op: fields.op,
            value: fields.value,
            answer: fields.answer,
        })
    }

    /// Reads a history text: its record, or the refusal.
    fn read_history(&self, text: &[u8]) -> Result<History, Refusal> {
        if self.too_long(text.len(), HISTORY_LIMIT) {
            return Err(Refusal::too_long(Text::History));
        }
        let lines = lines_of(text);
        let mut history = History::default();
        let mut events = false;
        for line in &lines {
            let bytes = line.of(text);
            let fault = if self.line_feed_missing(line) {
                2
            } else if line.number == 1 {
                if bytes == OBJECT_HEADING.as_bytes() { 0 } else { 2 }
            } else if !events && bytes == EVENT_HEADING.as_bytes() {
                events = true;
                0
            } else if !events {
                match self.object_line(bytes, history.objects.len() as u64) {
                    Ok(object) => {
                        history.objects.push(object);
                        0
                    }
                    Err(fault) => fault,
                }
            } else {
                match self.event_line(bytes, history.events.len() as u64, &history.objects) {
                    Ok(event) => {
                        history.events.push(event);
                        0
                    }
                    Err(fault) => fault,
                }
            };
            if fault != 0 {
                return Err(Refusal::faulty(fault, Text::History, line));
            }
        }
        if !events {
            return Err(Refusal::missing(Text::History, &lines));
        }
        Ok(history)
    }
}
