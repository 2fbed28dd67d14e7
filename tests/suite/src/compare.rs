//! Calls a checker and the model with the same texts and compares all that they give.

use std::collections::{BTreeMap, BTreeSet};

use crate::check::Document01;
use crate::checker::{Checker, Lent, Model};

/// One of the functions with what it takes besides the texts: lengths of lent memory, a wanted number.
#[derive(Clone, Copy, PartialEq, Eq, PartialOrd, Ord, Debug)]
pub enum Call {
    Check,
    Verdict { places: usize },
    RewriteHistory { buffer: usize },
    RewriteCertificate { buffer: usize },
    Weaken { wanted: u32, buffer: usize },
    Sequential { buffer: usize },
}

impl Call {
    pub fn name(&self) -> &'static str {
        match self {
            Call::Check => "check",
            Call::Verdict { .. } => "verdict",
            Call::RewriteHistory { .. } => "rewrite_history",
            Call::RewriteCertificate { .. } => "rewrite_certificate",
            Call::Weaken { .. } => "weaken",
            Call::Sequential { .. } => "sequential",
        }
    }
}

/// All that a call gives: the number, and every item of the lent memory, guards too.
#[derive(Clone, PartialEq, Eq)]
pub struct Outcome {
    pub answer: u32,
    pub places: Lent<u32>,
    pub buffer: Lent<u8>,
    pub length: u64,
    pub inputs_kept: bool,
}

pub fn run(checker: &dyn Checker, call: Call, history: &[u8], certificate: &[u8]) -> Outcome {
    let (places, buffer) = match call {
        Call::Verdict { places } => (places, 0),
        Call::RewriteHistory { buffer }
        | Call::RewriteCertificate { buffer }
        | Call::Weaken { buffer, .. }
        | Call::Sequential { buffer } => (0, buffer),
        Call::Check => (0, 0),
    };
    // No two neighbours in the lent memory are alike, and none of them is a byte of a text or a likely number.
    let mut outcome = Outcome {
        answer: 0,
        places: Lent::new(places, |place| 0xA5A5_0000 + place as u32),
        buffer: Lent::new(buffer, |place| 0x80 + (place % 101) as u8),
        length: 0x5353_5353,
        inputs_kept: true,
    };
    let before = (history.to_vec(), certificate.to_vec());
    outcome.answer = match call {
        Call::Check => checker.check(history, certificate),
        Call::Verdict { .. } => checker.verdict(history, certificate, &mut outcome.places),
        Call::RewriteHistory { .. } => checker.rewrite_history(history, &mut outcome.buffer, &mut outcome.length),
        Call::RewriteCertificate { .. } => {
            checker.rewrite_certificate(history, certificate, &mut outcome.buffer, &mut outcome.length)
        }
        Call::Weaken { wanted, .. } => {
            checker.weaken(history, certificate, wanted, &mut outcome.buffer, &mut outcome.length)
        }
        Call::Sequential { .. } => {
            checker.sequential(history, certificate, &mut outcome.buffer, &mut outcome.length)
        }
    };
    outcome.inputs_kept = before.0 == history && before.1 == certificate;
    outcome
}

impl Outcome {
    fn say(&self) -> String {
        let places: Vec<String> = self.places.all.iter().map(u32::to_string).collect();
        format!(
            "answer {}, places with guards [{}], length {}, buffer with guards {:?}{}",
            self.answer,
            places.join(" "),
            self.length,
            crop(&self.buffer.all),
            if self.inputs_kept { "" } else { ", an input changed" }
        )
    }
}

/// Bytes to print, the middle of long ones left out.
pub fn crop(bytes: &[u8]) -> String {
    let text = |part: &[u8]| part.escape_ascii().to_string();
    if bytes.len() <= 700 {
        return text(bytes);
    }
    format!("{} .. ({} bytes) .. {}", text(&bytes[..400]), bytes.len(), text(&bytes[bytes.len() - 200..]))
}

/// Two texts of so many bytes together are soon read.
const SHORT: usize = 1_000;

/// The check of a history text in which the answer of a line is lost.
pub const CHECK_OF_LOST: &str = "check with a lost answer";

/// The check of a history text with a channel.
pub const CHECK_OF_CHANNEL: &str = "check with a channel";

/// The check of a history text with a window.
pub const CHECK_OF_WINDOW: &str = "check with a window";

/// Compares a checker with the model and keeps the counts.
pub struct Comparer<'c> {
    pub checker: &'c dyn Checker,
    pub model: Model<Document01>,
    pub count: u64,
    pub differences: u64,
    /// How often each function answered each number.
    pub answers: BTreeMap<(&'static str, u32), u64>,
    /// The places that verdicts carried: answer, text, line, view, event.
    pub places: BTreeSet<[u32; 5]>,
    /// The first difference, for the wrong checkers.
    pub first: Option<String>,
    /// A wrong checker is left at its first difference, and nothing is printed.
    pub until_first: bool,
}

impl<'c> Comparer<'c> {
    pub fn new(checker: &'c dyn Checker, until_first: bool) -> Comparer<'c> {
        Comparer {
            checker,
            model: Model(Document01),
            count: 0,
            differences: 0,
            answers: BTreeMap::new(),
            places: BTreeSet::new(),
            first: None,
            until_first,
        }
    }

    /// Is a wrong checker found, so that the rest may be left out?
    pub fn done(&self) -> bool {
        self.until_first && self.differences > 0
    }

    /// Notes a comparison of any kind.
    pub fn note(&mut self, same: bool, say: impl FnOnce() -> String) {
        self.count += 1;
        if same {
            return;
        }
        self.differences += 1;
        if self.first.is_none() || (!self.until_first && self.differences <= 20) {
            let said = say();
            if !self.until_first {
                println!("difference {}: {said}", self.differences);
            }
            self.first.get_or_insert(said);
        }
    }

    /// Compares one call, and gives the checker's answer.
    pub fn compare(&mut self, call: Call, history: &[u8], certificate: &[u8]) -> u32 {
        if self.done() {
            return 0;
        }
        let given = run(self.checker, call, history, certificate);
        let expected = run(&self.model, call, history, certificate);
        *self.answers.entry((call.name(), given.answer)).or_default() += 1;
        if call == Call::Check && !self.until_first {
            for (part, name) in
                [(&b" ?\n"[..], CHECK_OF_LOST), (b" channel ", CHECK_OF_CHANNEL), (b" window ", CHECK_OF_WINDOW)]
            {
                if history.windows(part.len()).any(|bytes| bytes == part) {
                    *self.answers.entry((name, given.answer)).or_default() += 1;
                }
            }
        }
        if given.places.length >= 7 && !self.until_first {
            let part = &given.places.all[given.places.start..];
            self.places.insert([given.answer, part[1], part[2], part[3], part[4]]);
        }
        self.note(given == expected, || {
            format!(
                "{call:?}\n  given    {}\n  expected {}\n  history \"{}\"\n  certificate \"{}\"",
                given.say(),
                expected.say(),
                crop(history),
                crop(certificate)
            )
        });
        given.answer
    }

    /// The seven places alone, for long texts.
    pub fn verdict(&mut self, history: &[u8], certificate: &[u8]) -> u32 {
        self.compare(Call::Verdict { places: 7 }, history, certificate)
    }

    /// The check and its seven places; of short texts one line of stock too.
    pub fn check(&mut self, history: &[u8], certificate: &[u8]) -> u32 {
        self.compare(Call::Check, history, certificate);
        if history.len() + certificate.len() <= SHORT {
            self.compare(Call::Sequential { buffer: SHORT }, history, certificate);
        }
        self.compare(Call::Verdict { places: 7 }, history, certificate)
    }
}
