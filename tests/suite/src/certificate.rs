//! The certificate: its record, and its text read and written.

use crate::history::History;
use crate::texts::{fields_of, lines_of, list_text, NumberRules, Refusal, Text};

pub const CERTIFICATE_LIMIT: usize = 32_768;

/// The criteria, each at its number.
#[derive(Clone, Copy, PartialEq, Eq, Debug)]
pub enum Criterion {
    Pram,
    Weak,
    Causal,
    Converge,
    Sequential,
    Strict,
}

pub const CRITERIA: [Criterion; 6] = [
    Criterion::Pram, Criterion::Weak, Criterion::Causal, Criterion::Converge, Criterion::Sequential, Criterion::Strict,
];

impl Criterion {
    pub fn number(self) -> u32 {
        self as u32
    }

    pub fn word(self) -> &'static str {
        ["pram", "weak", "causal", "converge", "sequential", "strict"][self as usize]
    }

    /// weak, causal, converge and strict have pasts.
    pub fn has_pasts(self) -> bool {
        !matches!(self, Criterion::Pram | Criterion::Sequential)
    }

    /// The numbers of the views that a certificate of this history has.
    pub fn view_numbers(self, history: &History) -> Vec<usize> {
        match self {
            Criterion::Sequential | Criterion::Converge => vec![0],
            Criterion::Pram | Criterion::Strict => history.processes(),
            Criterion::Weak | Criterion::Causal => (0..history.events.len()).collect(),
        }
    }
}

pub type List = Vec<usize>;

/// A view and its number.
#[derive(Clone, PartialEq, Eq, Debug)]
pub struct View {
    pub number: usize,
    pub order: List,
}

#[derive(Clone, PartialEq, Eq, Debug)]
pub struct Certificate {
    pub criterion: Criterion,
    /// One an event where the criterion has pasts, else none.
    pub pasts: Vec<List>,
    pub views: Vec<View>,
}

impl Certificate {
    /// A certificate of these lists, the views numbered as the criterion says.
    pub fn new(history: &History, criterion: Criterion, pasts: Vec<List>, orders: Vec<List>) -> Certificate {
        let numbers = criterion.view_numbers(history);
        assert_eq!(numbers.len(), orders.len());
        let views = numbers.into_iter().zip(orders).map(|(number, order)| View { number, order }).collect();
        Certificate { criterion, pasts: if criterion.has_pasts() { pasts } else { vec![] }, views }
    }

    pub fn text(&self) -> Vec<u8> {
        let wide = |list: &List| list_text(&list.iter().map(|entry| *entry as u64).collect::<Vec<_>>());
        let mut text = format!("criterion {}\n", self.criterion.word());
        if self.criterion.has_pasts() {
            text += "event past\n";
            for (event, past) in self.pasts.iter().enumerate() {
                text += &format!("{event} {}\n", wide(past));
            }
        }
        text += "view order\n";
        for view in &self.views {
            text += &format!("{} {}\n", view.number, wide(&view.order));
        }
        text.into_bytes()
    }
}

/// What stands on a line of a certificate text past line 1.
enum Place {
    Heading(&'static str),
    Past(usize),
    View(usize),
}

/// How a certificate text is read. A wrong checker overrides one of these; the defaults are those of the documents.
pub trait CertificateRules: NumberRules {
    /// 3: an entry that isn't an event of the history, or more entries than the history has events.
    fn list_over(&self, list: &[u64], events: usize) -> bool {
        list.len() > events || list.iter().any(|entry| *entry >= events as u64)
    }

    /// 6: not strictly rising.
    fn not_rising(&self, list: &[u64]) -> bool {
        list.windows(2).any(|pair| pair[0] >= pair[1])
    }

    /// The order of the faults on a list, 2 aside.
    fn list_fault(&self, list: &[u64], events: usize, past: bool) -> Option<u32> {
        if self.list_over(list, events) {
            return Some(3);
        }
        if past && self.not_rising(list) {
            return Some(6);
        }
        None
    }

    /// Reads the list on a line whose own number is given, or gives its fault.
    fn list_line(&self, line: &[u8], number: usize, events: usize, past: bool) -> Result<List, u32> {
        let fields = fields_of(line);
        let [own, list] = fields[..] else { return Err(2) };
        let (Some(own), Some(list)) = (self.number(own), self.list(list)) else { return Err(2) };
        if own != number as u64 {
            return Err(2);
        }
        if let Some(fault) = self.list_fault(&list, events, past) {
            return Err(fault);
        }
        Ok(list.into_iter().map(|entry| entry as usize).collect())
    }

    /// Do the lines of the pasts stand in the text, with their heading?
    fn has_pasts(&self, criterion: Criterion, _: &History) -> bool {
        criterion.has_pasts()
    }

    /// The numbers that the view lines have.
    fn view_numbers(&self, criterion: Criterion, history: &History) -> Vec<usize> {
        criterion.view_numbers(history)
    }

    /// Reads a certificate text of a history, or gives the refusal.
    fn read_certificate(&self, history: &History, text: &[u8]) -> Result<Certificate, Refusal> {
        if self.too_long(text.len(), CERTIFICATE_LIMIT) {
            return Err(Refusal::too_long(Text::Certificate));
        }
        let lines = lines_of(text);
        let events = history.events.len();
        let first = lines.first().ok_or_else(|| Refusal::missing(Text::Certificate, &lines))?;
        let named = CRITERIA.into_iter().find(|criterion| first.of(text) == format!("criterion {}", criterion.word()).as_bytes());
        let criterion = match named {
            Some(criterion) if !self.line_feed_missing(first) => criterion,
            _ => return Err(Refusal::faulty(2, Text::Certificate, first)),
        };
        let mut places = Vec::new();
        if self.has_pasts(criterion, history) {
            places.push(Place::Heading("event past"));
            places.extend((0..events).map(Place::Past));
        }
        places.push(Place::Heading("view order"));
        places.extend(self.view_numbers(criterion, history).into_iter().map(Place::View));

        let mut certificate = Certificate { criterion, pasts: vec![], views: vec![] };
        for (index, place) in places.iter().enumerate() {
            let line = lines.get(index + 1).ok_or_else(|| Refusal::missing(Text::Certificate, &lines))?;
            let bytes = line.of(text);
            let fault = if self.line_feed_missing(line) {
                2
            } else {
                match place {
                    Place::Heading(heading) => if bytes == heading.as_bytes() { 0 } else { 2 },
                    Place::Past(event) => match self.list_line(bytes, *event, events, true) {
                        Ok(past) => {
                            certificate.pasts.push(past);
                            0
                        }
                        Err(fault) => fault,
                    },
                    Place::View(number) => match self.list_line(bytes, *number, events, false) {
                        Ok(order) => {
                            certificate.views.push(View { number: *number, order });
                            0
                        }
                        Err(fault) => fault,
                    },
                }
            };
            if fault != 0 {
                return Err(Refusal::faulty(fault, Text::Certificate, line));
            }
        }
        // A line too many is the first one past those that belong there.
        match lines.get(places.len() + 1) {
            Some(line) => Err(Refusal::faulty(2, Text::Certificate, line)),
            None => Ok(certificate),
        }
    }
}
