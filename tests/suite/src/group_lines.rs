//! Lines put together from all choices of each field, so that every pair of faults stands on a line.

use crate::certificate::{Criterion, CRITERIA};
use crate::compare::Comparer;
use crate::random::Random;
use crate::samples::certificate;

const HEAD: &str = "object kind width\n";
const EVENTS: &str = "event process object op value answer\n";

/// All lines with one choice for each field; of many, only each `step`th.
fn products(choices: &[&[&str]], step: usize, mut each: impl FnMut(&str)) {
    let total: usize = choices.iter().map(|choice| choice.len()).product();
    let mut index = 0;
    while index < total {
        let mut left = index;
        let mut line = Vec::new();
        for choice in choices {
            line.push(choice[left % choice.len()]);
            left /= choice.len();
        }
        each(&line.join(" "));
        index += step;
    }
}

/// Ways to spoil the layout of a line.
fn spoilt(line: &str) -> Vec<String> {
    let mut lines = vec![
        format!(" {line}"), format!("{line} "), format!("{line} -"), format!("{line}\r"), format!("{line}\t"), format!("{line}\0"),
        line.replacen(' ', "  ", 1), line.replacen(' ', "\t", 1), line.replacen(' ', "", 1), line.to_uppercase(), format!("0{line}"),
        format!("+{line}"), format!("{line},"), format!("{line},0"), format!("{line}\n"), format!("\n{line}"), String::new(),
        format!("{line}?"), format!("?{line}"), format!("{line} ?"), format!("{line},?"),
    ];
    let fields: Vec<&str> = line.split(' ').collect();
    for place in 0..fields.len() {
        let mut fewer = fields.clone();
        fewer.remove(place);
        lines.push(fewer.join(" "));
        let mut more = fields.clone();
        more.insert(place, "0");
        lines.push(more.join(" "));
        let mut without = fields.clone();
        without[place] = "";
        lines.push(without.join(" "));
        for other in ["-", "?", "?,7", "7,?", "??", "-?", "?-"] {
            let mut changed = fields.clone();
            changed[place] = other;
            lines.push(changed.join(" "));
        }
    }
    for place in 0..line.len() {
        lines.push(format!("{}{}", &line[..place], &line[place + 1..]));
        lines.push(format!("{} {}", &line[..place], &line[place..]));
        lines.push(line[..place].to_string());
    }
    lines
}

fn step(comparer: &Comparer, of: usize) -> usize {
    if comparer.until_first { of } else { 1 }
}

/// Lines of objects, as the first, the second and the 17th.
pub fn objects(comparer: &mut Comparer, _: &mut Random, _: usize) {
    let kinds = [
        "register", "queue", "stack", "window", "channel", "windows", "Queue", "channels", "", "0", "-", "read",
    ];
    let widths = [
        "-", "0", "1", "2", "8", "9", "10", "63", "64", "65", "255", "256", "257", "320", "65536", "65537",
        "4294967297", "18446744073709551617", "00", "01", "064", "+1", "-1", "--", "", "1,2", "64,", "x", "1x",
        "99999999999999999999999999999999", "?",
    ];
    let many: String = (0..16).map(|number| format!("{number} stack -\n")).collect();
    let owns: [(&str, [&str; 6]); 3] = [
        ("", ["0", "1", "00", "-", "", "16"]),
        ("0 stack -\n", ["1", "0", "01", "-", "2", "18446744073709551617"]),
        (&many, ["16", "15", "17", "016", "", "0"]),
    ];
    for (before, owns) in owns {
        for after in [EVENTS, "0 0 0 write\n", "", "1 queue 0\n"] {
            let step = step(comparer, 3);
            products(&[&owns, &kinds, &widths], step, |line| {
                let text = format!("{HEAD}{before}{line}\n{after}");
                comparer.check(text.as_bytes(), b"");
            });
        }
        for good in [format!("{} window 3", owns[0]), format!("{} channel 37", owns[0])] {
            for line in spoilt(&good) {
                for end in ["\n", ""] {
                    let text = format!("{HEAD}{before}{line}{end}");
                    comparer.check(text.as_bytes(), b"");
                    let text = format!("{HEAD}{before}{line}{end}{EVENTS}");
                    comparer.check(text.as_bytes(), b"");
                }
            }
        }
    }
    for heading in spoilt("object kind width").into_iter().chain(spoilt("event process object op value answer")) {
        for text in [format!("{heading}\n{EVENTS}"), format!("{HEAD}{heading}\n{EVENTS}"), format!("{HEAD}{EVENTS}{heading}\n")] {
            comparer.check(text.as_bytes(), b"");
        }
    }
}

/// Lines of events, as the first and as the 65th.
pub fn events(comparer: &mut Comparer, _: &mut Random, _: usize) {
    let processes = ["0", "7", "8", "256", "00", "-", "4294967296"];
    let objects = ["0", "1", "2", "3", "4", "5", "65536", "-", "01"];
    let ops = ["write", "read", "push", "pop", "peek", "reads", ""];
    let values = ["-", "0", "65535", "65536", "07", "18446744073709551616", "", "4294967297", "?"];
    let answers = [
        "-", "0", "65535", "65536", "1,2", "1,65536", "1,2,3", "1,", ",1", "01", "-,1", "", "18446744073709551616,1",
        "?", "?,1", "1,?", "??", "-?",
    ];
    let five = "0 register -\n1 queue -\n2 stack -\n3 window 2\n4 channel 1\n";
    let base = format!("{HEAD}{five}{EVENTS}");
    let wide = step(comparer, 11);
    products(&[&["0", "1", "00", "-"], &processes, &objects, &ops, &values, &answers], wide * 3, |line| {
        let text = format!("{base}{line}\n");
        comparer.check(text.as_bytes(), b"");
    });
    let full: String = (0..64).map(|number| format!("{number} 1 1 peek - -\n")).collect();
    let few = ["-", "0", "1,2", "1,", "65536", "?", "?,"];
    products(&[&["64", "65", "63"], &["0", "8"], &["0", "3", "4", "5"], &ops, &values, &few], wide * 5, |line| {
        let text = format!("{base}{full}{line}\n");
        comparer.check(text.as_bytes(), b"");
    });
    let recorded = ["0 5 0 write 12 -", "0 5 3 read - 12,34", "0 0 1 pop - 12", "0 5 4 push 12 12"];
    let lost = ["0 5 0 write 12 ?", "0 5 3 read - ?", "0 0 1 pop - ?"];
    for good in recorded.into_iter().chain(lost) {
        for line in spoilt(good) {
            for end in ["\n", "", "\n1 0 0 read - 0\n"] {
                let text = format!("{base}{line}{end}");
                comparer.check(text.as_bytes(), b"");
            }
        }
    }
    // Windows of every width with answers of every length near it, and with a lost one alone and in a list.
    for width in 1..=8 {
        let lengths = (0..=9).map(|length| if length == 0 { "-".to_string() } else { vec!["3"; length].join(",") });
        let lists = (1..=9).map(|length| [vec!["?"], vec!["0"; length - 1]].concat().join(","));
        for answer in lengths.chain(lists) {
            for (op, value) in [("read", "-"), ("write", "3")] {
                let text = format!("{HEAD}0 window {width}\n{EVENTS}0 0 0 {op} {value} {answer}\n");
                comparer.check(text.as_bytes(), b"criterion sequential\nview order\n0 0\n");
            }
        }
    }
    // Each op of each kind with answers of no value, of one, which may be the value pushed, and of two, and lost; on a
    // channel as the first push and behind it.
    for object in ["register -", "queue -", "stack -", "window 1", "channel 1", "channel 2", "channel 64"] {
        for (op, value) in [("write", "3"), ("read", "-"), ("push", "3"), ("pop", "-"), ("peek", "-")] {
            for answer in ["-", "3", "4", "0", "3,3", "65535", "65536", "?"] {
                let text = format!("{HEAD}0 {object}\n{EVENTS}0 0 0 {op} {value} {answer}\n");
                comparer.check(text.as_bytes(), b"criterion sequential\nview order\n0 0\n");
                let text = format!("{HEAD}0 {object}\n{EVENTS}0 0 0 push 4 -\n1 0 0 {op} {value} {answer}\n");
                comparer.check(text.as_bytes(), b"criterion sequential\nview order\n0 0,1\n");
            }
        }
    }
}

const LISTS: [&str; 45] = [
    "-", "0", "1", "2", "0,1", "1,0", "0,0", "1,2", "0,2", "2,1", "0,1,2", "2,1,0", "1,1,1", "0,1,2,0", "0,1,2,3", "3", "0,3", "3,0",
    "3,3,3,3", "64", "256", "65536", "4294967296", "4294967297,1", "18446744073709551616", "18446744073709551617,0", "", ",", "0,",
    ",0", "0,,1", "-,0", "0,-", "00", "01", "+0", "0 1", "2,1,3", "1,0,x", "0;1", "1,01", "0,1,1", "?", "0,?", "?,1",
];

/// Lines of certificates of a history with three events by processes 2 and 5, in each place where one stands.
pub fn certificates(comparer: &mut Comparer, _: &mut Random, _: usize) {
    let history = format!("{HEAD}0 register -\n{EVENTS}0 2 0 write 3 -\n1 5 0 write 4 -\n2 5 0 read - 4\n");
    let record = crate::history::HistoryRules::read_history(&crate::check::Document01, history.as_bytes()).expect("it reads");
    for criterion in CRITERIA {
        let pasts: [&[usize]; 3] = [&[], &[0], &[0, 1]];
        let views: &[&[usize]] = match criterion {
            Criterion::Pram | Criterion::Strict => &[&[0, 1, 2], &[0, 1, 2]],
            Criterion::Weak | Criterion::Causal => &[&[0], &[0, 1], &[0, 1, 2]],
            _ => &[&[0, 1, 2]],
        };
        let text = String::from_utf8(certificate(&record, criterion, &pasts, views).text()).expect("it is ASCII");
        let lines: Vec<&str> = text.lines().collect();
        let with = |place: usize, line: &str| {
            let mut changed = lines.clone();
            changed[place] = line;
            changed.join("\n") + "\n"
        };
        for place in 0..lines.len() {
            for line in spoilt(lines[place]) {
                let changed = with(place, &line);
                comparer.check(history.as_bytes(), changed.as_bytes());
                comparer.check(history.as_bytes(), changed.trim_end_matches('\n').as_bytes());
            }
            let own = lines[place].split(' ').next().expect("a line has a field");
            if own.parse::<u32>().is_err() {
                continue;
            }
            let next = format!("{}", own.parse::<u32>().unwrap() + 1);
            let zero = format!("0{own}");
            let choices: [&[&str]; 2] = [&[own, &next, &zero, "-", "", "7", "18446744073709551616"], &LISTS];
            products(&choices, 1, |line| {
                let changed = with(place, line);
                comparer.check(history.as_bytes(), changed.as_bytes());
                // A second faulty line above or below.
                for other in 1..lines.len() {
                    if other != place && !comparer.until_first {
                        let mut twice: Vec<&str> = changed.lines().collect();
                        twice[other] = "0 1,0";
                        let twice = twice.join("\n") + "\n";
                        comparer.check(history.as_bytes(), twice.as_bytes());
                    }
                }
            });
        }
        for count in 0..lines.len() {
            let short = lines[..count].iter().map(|line| format!("{line}\n")).collect::<String>();
            comparer.check(history.as_bytes(), short.as_bytes());
        }
        for extra in ["\n", "x", "0 -\n", "3 -\n", "view order\n", " \n", "0 0,1,2\n3 0,1,2\n"] {
            comparer.check(history.as_bytes(), format!("{text}{extra}").as_bytes());
        }
    }
}
