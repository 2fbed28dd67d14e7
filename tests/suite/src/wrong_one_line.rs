//! Wrong ways to write one line of stock. Those of the order, the refusals and the line are the model with an entry or two
//! of a table replaced; the others spoil what the archive gives.

use crate::certificate::{Certificate, CertificateRules, Criterion, List, CERTIFICATE_LIMIT};
use crate::check::{CheckRules, Document01, Rules};
use crate::checker::{Archive, Checker, Lent, Model};
use crate::history::{Event, History, HistoryRules, HISTORY_LIMIT};
use crate::make::answers_of;
use crate::objects::{ObjectRules, Op};
use crate::sequential::{is_source, is_update};
use crate::texts::NumberRules;
use crate::wrong::{first_of, Spoil, Spoilt};

/// A refusal that comes after reading and before 18.
#[derive(Clone, Copy)]
enum Refusal {
    Seventeen,
    /// These of the check's faults, in this order.
    Faults(&'static [u32]),
    TwentySix,
}

use Refusal::{Faults, Seventeen, TwentySix};

const FAULTS: &[u32] = &[11, 12, 13, 14, 15, 20, 16];

/// Where an event stands in the line: by how many updates stand before, then as the second number says, then by the third.
type Key = (usize, usize, usize);

/// The rules of one line, each an entry that a wrong checker replaces.
#[derive(Clone, Copy)]
struct OneLine {
    /// The refusals in their order.
    refusals: &'static [Refusal],
    /// The numbers by which it refuses with 17 and 26.
    numbers: (u32, u32),
    /// Is it written from certificates of the criterion?
    source: fn(Criterion) -> bool,
    /// Is 26 asked of the event?
    asked: fn(&Event) -> bool,
    /// Is 26 asked of the two events together?
    together: fn(&Event, &Event) -> bool,
    /// Does one event come before another?
    before: fn(&History, &Certificate, usize, usize) -> bool,
    /// Does a history and certificate that leave two unordered pass all the same, by the line that is made of them?
    passes: fn(&History, &List) -> bool,
    /// Is the event an update where the line is made?
    update: fn(&Event) -> bool,
    /// Where an event stands, by the count of updates in its past and whether it is an update.
    key: fn(&History, &Certificate, usize, usize, bool) -> Key,
    /// What becomes of the line.
    line: fn(&History, &Certificate, List) -> List,
    /// The text of the line, by the certificate that was given.
    text: fn(&Certificate, Vec<u8>) -> Vec<u8>,
    /// Is 17 asked of the texts before they are read?
    unread: bool,
}

const RIGHT: OneLine = OneLine {
    refusals: &[Seventeen, Faults(FAULTS), TwentySix],
    numbers: (17, 26),
    source: is_source,
    asked: is_update,
    together: |_, _| true,
    before: |history, certificate, a, b| past_of(history, certificate, b).contains(&a),
    passes: |_, _| false,
    update: is_update,
    key: |_, _, e, count, update| (count, usize::from(update), e),
    line: |_, _, line| line,
    text: |_, text| text,
    unread: false,
};

/// The past of an event; of a criterion without pasts it is what program order has before it.
fn past_of(history: &History, certificate: &Certificate, e: usize) -> List {
    match certificate.pasts.get(e) {
        Some(past) => past.clone(),
        None => (0..e).filter(|f| history.program_order(*f, e)).collect(),
    }
}

impl ObjectRules for OneLine {}
impl NumberRules for OneLine {}
impl HistoryRules for OneLine {}
impl CertificateRules for OneLine {}
impl CheckRules for OneLine {}

impl OneLine {
    fn crosses(&self, history: &History, certificate: &Certificate) -> bool {
        let events = &history.events;
        let unordered = |a: usize, b: usize| {
            !(self.before)(history, certificate, a, b) && !(self.before)(history, certificate, b, a)
        };
        let asked: List = (0..events.len()).filter(|e| (self.asked)(&events[*e])).collect();
        let crosses = |a: usize, b: usize| a < b && (self.together)(&events[a], &events[b]) && unordered(a, b);
        asked.iter().any(|a| asked.iter().any(|b| crosses(*a, *b))) && !(self.passes)(history, &self.line(history, certificate))
    }

    fn line(&self, history: &History, certificate: &Certificate) -> List {
        let update = |e: usize| (self.update)(&history.events[e]);
        let count = |e: usize| past_of(history, certificate, e).into_iter().filter(|f| update(*f)).count();
        let mut line: List = (0..history.events.len()).collect();
        line.sort_by_key(|e| (self.key)(history, certificate, *e, count(*e), update(*e)));
        (self.line)(history, certificate, line)
    }

    fn refused(&self, refusal: Refusal, history: &History, certificate: &Certificate) -> Option<u32> {
        match refusal {
            Seventeen => (!(self.source)(certificate.criterion)).then_some(self.numbers.0),
            Faults(faults) => first_of(self, faults, history, certificate).map(|fault| fault.0),
            TwentySix => self.crosses(history, certificate).then_some(self.numbers.1),
        }
    }
}

impl Rules for OneLine {
    fn sequential(&self, history: &[u8], certificate: &[u8]) -> Result<Vec<u8>, u32> {
        let named = |word: &str| certificate.starts_with(format!("criterion {word}\n").as_bytes());
        let short = history.len() <= HISTORY_LIMIT && certificate.len() <= CERTIFICATE_LIMIT;
        if self.unread && short && (named("pram") || named("sequential")) {
            return Err(17);
        }
        let (history, certificate) = self.read_both(history, certificate).map_err(|refusal| refusal.answer)?;
        match self.refusals.iter().find_map(|refusal| self.refused(*refusal, &history, &certificate)) {
            Some(answer) => Err(answer),
            None => {
                let line = self.line(&history, &certificate);
                let made = Certificate::new(&history, Criterion::Sequential, vec![], vec![line]);
                Ok((self.text)(&certificate, made.text()))
            }
        }
    }
}

/// A refused push: the channel was full.
fn refused_push(event: &Event) -> bool {
    event.op == Op::Push && event.answer.as_ref().is_some_and(|answer| !answer.is_empty())
}

/// A pop that was answered nothing.
fn popped_nothing(event: &Event) -> bool {
    event.op == Op::Pop && event.answer.as_ref().is_some_and(|answer| answer.is_empty())
}

/// Are all answers of the history those that a replay of the line gives?
fn replays(history: &History, line: &List) -> bool {
    let given = answers_of(history, line);
    line.iter().zip(given).all(|(e, answer)| !Document01.differs(&history.events[*e], &answer))
}

/// The extension of the causal order in which the event of lowest number, of those that may come next, always does.
fn lowest_extension(history: &History, certificate: &Certificate) -> List {
    let mut line: List = vec![];
    while line.len() < history.events.len() {
        let free = |e: &usize| !line.contains(e) && past_of(history, certificate, *e).iter().all(|f| line.contains(f));
        // Where the pasts are no order, the rest comes as it is numbered.
        let next = (0..history.events.len()).find(free).or((0..history.events.len()).find(|e| !line.contains(e)));
        line.extend(next);
    }
    line
}

/// How many updates of the line stand up to and with the last one that is wanted; 0 if none is.
fn behind_last(history: &History, line: &[usize], wanted: &dyn Fn(usize) -> bool) -> usize {
    let updates: List = line.iter().copied().filter(|e| is_update(&history.events[*e])).collect();
    updates.iter().rposition(|e| wanted(*e)).map_or(0, |place| place + 1)
}

/// The line with each read and peek put behind so many of its updates as `count` says, several at one place rising.
fn with_reads_behind(history: &History, line: &List, count: &dyn Fn(usize) -> usize) -> List {
    let updates: List = line.iter().copied().filter(|e| is_update(&history.events[*e])).collect();
    let mut placed = vec![];
    for place in 0..=updates.len() {
        placed.extend((0..line.len()).filter(|e| !updates.contains(e) && count(*e) == place));
        placed.extend(updates.get(place));
    }
    placed
}

/// Wrong lines, refusals and texts with what is wrong with them.
fn wrong_rules() -> Vec<(&'static str, OneLine)> {
    use Criterion::{Causal, Converge, Pram, Sequential, Strict, Weak};
    let asking = |asked| OneLine { asked, ..RIGHT };
    let lining = |update| OneLine { update, ..RIGHT };
    let both = |update| OneLine { asked: update, update, ..RIGHT };
    let together = |together| OneLine { together, ..RIGHT };
    let before = |before| OneLine { before, ..RIGHT };
    let keyed = |key| OneLine { key, ..RIGHT };
    let lined = |line| OneLine { line, ..RIGHT };
    let texted = |text| OneLine { text, ..RIGHT };
    let refusing = |refusals| OneLine { refusals, ..RIGHT };
    let numbered = |numbers| OneLine { numbers, ..RIGHT };
    let from = |source| OneLine { source, ..RIGHT };
    vec![
        // What an update is.
        ("write is no update", both(|event| is_update(event) && event.op != Op::Write)),
        ("push is no update", both(|event| is_update(event) && event.op != Op::Push)),
        ("pop is no update", both(|event| is_update(event) && event.op != Op::Pop)),
        ("peek is an update", both(|event| is_update(event) || event.op == Op::Peek)),
        ("read is an update", both(|event| is_update(event) || event.op == Op::Read)),
        ("a refused push is no update", both(|event| is_update(event) && !refused_push(event))),
        ("a pop of nothing is no update", both(|event| is_update(event) && !popped_nothing(event))),
        ("an op whose answer is lost is no update", both(|event| is_update(event) && event.answer.is_some())),
        ("26 is not asked of a write", asking(|event| is_update(event) && event.op != Op::Write)),
        ("26 is not asked of a push", asking(|event| is_update(event) && event.op != Op::Push)),
        ("26 is not asked of a pop", asking(|event| is_update(event) && event.op != Op::Pop)),
        ("26 is not asked of a refused push", asking(|event| is_update(event) && !refused_push(event))),
        ("26 is not asked of a pop of nothing", asking(|event| is_update(event) && !popped_nothing(event))),
        ("26 is not asked where an answer is lost", asking(|event| is_update(event) && event.answer.is_some())),
        ("26 is asked of reads", asking(|event| is_update(event) || event.op == Op::Read)),
        ("26 is asked of peeks", asking(|event| is_update(event) || event.op == Op::Peek)),
        ("26 is asked of all events", asking(|_| true)),
        ("a pop stands in the line as a peek does", lining(|event| is_update(event) && event.op != Op::Pop)),
        ("a refused push stands in the line as a peek does", lining(|event| is_update(event) && !refused_push(event))),
        ("a pop of nothing stands in the line as a peek does", lining(|event| is_update(event) && !popped_nothing(event))),
        ("an update whose answer is lost stands in the line as a read does", lining(|event| is_update(event) && event.answer.is_some())),
        // Which two are unordered.
        ("26 is asked of the updates of one object only", together(|a, b| a.object == b.object)),
        ("26 is asked of the updates of two objects only", together(|a, b| a.object != b.object)),
        ("26 is asked of updates of one op only", together(|a, b| a.op == b.op)),
        ("26 is asked of updates with a value only", together(|a, b| a.value.is_some() && b.value.is_some())),
        ("26 wherever two processes update", before(|history, _, a, b| history.program_order(a, b))),
        ("26 unless the numbers of the updates rise", before(|history, certificate, a, b| {
            a < b && (RIGHT.before)(history, certificate, a, b)
        })),
        ("26 is not asked where an event sees both", before(|history, certificate, a, b| {
            let sees = |e: usize| [a, b].iter().all(|f| past_of(history, certificate, e).contains(f));
            (RIGHT.before)(history, certificate, a, b) || (0..history.events.len()).any(sees)
        })),
        ("26 asks the one view of converge", before(|history, certificate, a, b| match certificate.criterion {
            Converge => {
                let place = |e: usize| certificate.views[0].order.iter().position(|f| *f == e);
                place(a) < place(b)
            }
            _ => (RIGHT.before)(history, certificate, a, b),
        })),
        ("26 only where the line does not replay", OneLine { passes: replays, ..RIGHT }),
        // The refusals.
        ("there is no 26", refusing(&[Seventeen, Faults(FAULTS)])),
        ("26 before the check's faults", refusing(&[Seventeen, TwentySix, Faults(FAULTS)])),
        (
            "26 after 13 and before 14",
            refusing(&[Seventeen, Faults(&[11, 12, 13]), TwentySix, Faults(&[14, 15, 20, 16])]),
        ),
        ("26 before 16", refusing(&[Seventeen, Faults(&[11, 12, 13, 14, 15, 20]), TwentySix, Faults(&[16])])),
        ("26 before 20", refusing(&[Seventeen, Faults(&[11, 12, 13, 14, 15]), TwentySix, Faults(&[20, 16])])),
        ("the check's faults before 17", refusing(&[Faults(FAULTS), Seventeen, TwentySix])),
        ("the check is not asked", refusing(&[Seventeen, TwentySix])),
        ("the line is written without 16", refusing(&[Seventeen, Faults(&[11, 12, 13, 14, 15, 20]), TwentySix])),
        ("the line is written without 20", refusing(&[Seventeen, Faults(&[11, 12, 13, 14, 15, 16]), TwentySix])),
        ("the line is written without 14 and 15", refusing(&[Seventeen, Faults(&[11, 12, 13, 20, 16]), TwentySix])),
        ("the line is written with 20 after 16", refusing(&[Seventeen, Faults(&[11, 12, 13, 14, 15, 16, 20]), TwentySix])),
        ("17 before the reading refusals but 1", OneLine { unread: true, ..RIGHT }),
        ("26 is 17", numbered((17, 17))),
        ("26 is 16", numbered((17, 16))),
        ("26 is 25", numbered((17, 25))),
        ("17 is 26", numbered((26, 26))),
        ("17 for pram only", from(|criterion| criterion != Pram)),
        ("17 for sequential only", from(|criterion| criterion != Sequential)),
        ("17 for weak", from(|criterion| is_source(criterion) && criterion != Weak)),
        ("17 for causal", from(|criterion| is_source(criterion) && criterion != Causal)),
        ("17 for strict", from(|criterion| is_source(criterion) && criterion != Strict)),
        ("17 for converge", from(|criterion| is_source(criterion) && criterion != Converge)),
        ("there is no 17", from(|_| true)),
        // The line.
        ("the line is the lowest extension of the causal order", lined(|history, given, _| lowest_extension(history, given))),
        ("the line is the view of converge", lined(|_, given, line| match given.criterion {
            Converge => given.views[0].order.clone(),
            _ => line,
        })),
        ("the line is the first view of strict", lined(|_, given, line| match given.criterion {
            Strict => given.views.first().map_or(line, |view| view.order.clone()),
            _ => line,
        })),
        ("the line is the events by their numbers", lined(|history, _, _| (0..history.events.len()).collect())),
        ("the line has falling numbers at one place", keyed(|_, _, e, count, update| (count, usize::from(update), 63 - e))),
        ("the line has the reads at one place by process", keyed(|history, _, e, count, update| {
            (count, usize::from(update), 64 * history.events[e].process + e)
        })),
        ("the line has the reads at one place by object", keyed(|history, _, e, count, update| {
            (count, usize::from(update), 64 * history.events[e].object + e)
        })),
        ("the line has the reads at one place in causal order", keyed(|history, given, e, count, update| {
            (count, usize::from(update), 64 * past_of(history, given, e).len() + e)
        })),
        ("the line has peeks at one place behind reads", keyed(|history, _, e, count, update| {
            (count, usize::from(update), 64 * usize::from(history.events[e].op == Op::Peek) + e)
        })),
        ("a read stands behind the next update", keyed(|_, _, e, count, update| (count, usize::from(!update), e))),
        ("a read stands before the last update in its past", keyed(|_, _, e, count, update| {
            if update { (count + 1, 0, e) } else { (count.saturating_sub(1), 1, e) }
        })),
        ("a read without updates in its past stands last", keyed(|_, _, e, count, update| {
            (if count == 0 && !update { 65 } else { count }, usize::from(update), e)
        })),
        ("a read without updates in its past stands behind the first update", keyed(|_, _, e, count, update| {
            (if update { count } else { count.max(1) }, usize::from(update), e)
        })),
        ("a read whose answer is lost stands last", keyed(|history, _, e, count, update| {
            let last = !update && history.events[e].answer.is_none();
            (if last { 65 } else { count }, usize::from(update), e)
        })),
        ("the reads stand first of all", keyed(|_, _, e, count, update| (usize::from(update), count, e))),
        ("the reads stand last of all", keyed(|_, _, e, count, update| (usize::from(!update), count, e))),
        ("an event stands by the size of its past", keyed(|history, given, e, _, update| {
            (past_of(history, given, e).len(), usize::from(update), e)
        })),
        ("the updates of one place stand with its reads", keyed(|_, _, e, count, _| (count, 0, e))),
        ("a read stands right behind the last update of its object", lined(|history, given, line| {
            let count = |e: usize| {
                let past = past_of(history, given, e);
                let same = |f: usize| history.events[f].object == history.events[e].object;
                behind_last(history, &line, &|f| past.contains(&f) && same(f))
            };
            with_reads_behind(history, &line, &count)
        })),
        ("a read stands right before the next update of its object", lined(|history, given, line| {
            let updates: List = line.iter().copied().filter(|e| is_update(&history.events[*e])).collect();
            let count = |e: usize| {
                let past = past_of(history, given, e);
                let next = |f: &usize| !past.contains(f) && history.events[*f].object == history.events[e].object;
                updates.iter().position(next).unwrap_or(updates.len())
            };
            with_reads_behind(history, &line, &count)
        })),
        ("a read stands behind the last update of its process", lined(|history, _, line| {
            let own = |e: usize, f: usize| history.program_order(f, e);
            with_reads_behind(history, &line, &|e| behind_last(history, &line, &|f| own(e, f)))
        })),
        ("the updates stand by rising numbers", lined(|history, _, line| {
            let mut rising: List = (0..line.len()).filter(|e| is_update(&history.events[*e])).collect();
            rising.reverse();
            let turned = |e: &usize| if is_update(&history.events[*e]) { rising.pop().expect("as many") } else { *e };
            line.iter().map(turned).collect()
        })),
        ("the reads are left out of the line", lined(|history, _, line| {
            line.into_iter().filter(|e| is_update(&history.events[*e])).collect()
        })),
        // The text.
        ("the text names the criterion that was given", texted(|given, text| {
            let named = format!("criterion {}\n", given.criterion.word());
            [named.as_bytes(), &text["criterion sequential\n".len()..]].concat()
        })),
        ("the text names converge", texted(|_, text| {
            [b"criterion converge\n", &text["criterion sequential\n".len()..]].concat()
        })),
        ("the text of no events has no view line", texted(|_, text| match text.strip_suffix(b"0 -\n") {
            Some(less) => less.to_vec(),
            None => text,
        })),
        ("the text lacks its final line feed", texted(|_, text| text[..text.len() - 1].to_vec())),
        ("the text is the certificate's", texted(|given, _| given.text())),
    ]
}

/// The archive with only what it makes of one line spoilt.
struct SpoiltLine {
    /// What is spoilt of the buffer, the length and 18.
    spoil: Option<Spoil>,
    /// The numbers that 18 comes before.
    after_short: &'static [u32],
}

/// The length of every sequential text of a history.
fn length_of_lines(history: &[u8]) -> usize {
    let history = Document01.read_history(history).unwrap_or_default();
    let line = (0..history.events.len()).collect();
    Certificate::new(&history, Criterion::Sequential, vec![], vec![line]).text().len()
}

impl Checker for SpoiltLine {
    fn check(&self, history: &[u8], certificate: &[u8]) -> u32 {
        Archive.check(history, certificate)
    }

    fn verdict(&self, history: &[u8], certificate: &[u8], places: &mut Lent<u32>) -> u32 {
        Archive.verdict(history, certificate, places)
    }

    fn rewrite_history(&self, history: &[u8], buffer: &mut Lent<u8>, length: &mut u64) -> u32 {
        Archive.rewrite_history(history, buffer, length)
    }

    fn rewrite_certificate(&self, history: &[u8], certificate: &[u8], buffer: &mut Lent<u8>, length: &mut u64) -> u32 {
        Archive.rewrite_certificate(history, certificate, buffer, length)
    }

    fn weaken(&self, history: &[u8], certificate: &[u8], wanted: u32, buffer: &mut Lent<u8>, length: &mut u64) -> u32 {
        Archive.weaken(history, certificate, wanted, buffer, length)
    }

    fn sequential(&self, history: &[u8], certificate: &[u8], buffer: &mut Lent<u8>, length: &mut u64) -> u32 {
        let before = buffer.clone();
        let answer = Archive.sequential(history, certificate, buffer, length);
        if self.after_short.contains(&answer) && buffer.length < length_of_lines(history) {
            return 18;
        }
        let Some(spoil) = self.spoil else { return answer };
        let again = |larger: &mut Lent<u8>, all: &mut u64| Archive.sequential(history, certificate, larger, all);
        Spoilt(spoil).lists(answer, &before, buffer, length, again);
        Spoilt(spoil).written(answer, &before, buffer, length)
    }
}

/// Wrong ways to write one line with what is wrong with them.
pub fn wrong_of_one_line() -> Vec<(&'static str, Box<dyn Checker>)> {
    fn spoilt(spoil: Spoil) -> SpoiltLine {
        SpoiltLine { spoil: Some(spoil), after_short: &[] }
    }
    fn after_short(after_short: &'static [u32]) -> SpoiltLine {
        SpoiltLine { spoil: None, after_short }
    }
    let memory: [(&str, SpoiltLine); 14] = [
        ("one line: 26 after 18", after_short(&[26])),
        ("one line: 17 after 18", after_short(&[17])),
        ("one line: the check's faults after 18", after_short(&[11, 12, 13, 14, 15, 16, 20])),
        ("one line: a byte is written on a refusal", spoilt(Spoil::ByteOnRefusal)),
        ("one line: the length isn't 0 on a refusal", spoilt(Spoil::LengthOnRefusal)),
        ("one line: the length is left on a refusal", spoilt(Spoil::LengthLeftOnRefusal)),
        ("one line: 18 for a buffer of exactly the length", spoilt(Spoil::EighteenAtExactLength)),
        ("one line: no 18 for a buffer that is too short", spoilt(Spoil::EighteenOneLate)),
        ("one line: a buffer that is too short is written up to its end", spoilt(Spoil::ShortWrittenToItsEnd)),
        ("one line: a byte is written behind the text", spoilt(Spoil::ByteBehindTheText)),
        ("one line: a byte is written behind the buffer", spoilt(Spoil::ByteBehindTheBuffer)),
        ("one line: the rest of the buffer is cleared", spoilt(Spoil::RestCleared)),
        ("one line: the last of 64 events is not written", spoilt(Spoil::LastOf64LeftOut)),
        ("one line: a line of more than 128 bytes is cut", spoilt(Spoil::LongListCut)),
    ];
    let mut checkers: Vec<(&'static str, Box<dyn Checker>)> = vec![];
    for (name, rules) in wrong_rules() {
        checkers.push((name, Box::new(Model(rules))));
    }
    for (name, checker) in memory {
        checkers.push((name, Box::new(checker)));
    }
    checkers
}
