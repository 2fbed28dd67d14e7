//! The test suite of the archive: a model written from the words of document 01 and of T-01 to T-06 and T-11 in document 02, a
//! brute force for small histories, comparisons of the archive with both, and wrong checkers that the comparisons must
//! find.
//!
//! `cargo run --release --offline [-- SEED [ROUNDS]]`. The seed is printed, so that a run can be repeated. A line a group, and a last
//! line with the sums. The exit status is 1 on any difference.

mod answers;
mod brute;
mod certificate;
mod check;
mod checker;
mod compare;
mod damage;
mod group_carried;
mod group_channels;
mod group_limits;
mod group_lines;
mod group_lists;
mod group_meets;
mod group_memory;
mod group_one_line;
mod group_places;
mod group_random;
mod group_stated;
mod group_strict;
mod group_weaken;
mod group_windows;
mod history;
mod make;
mod objects;
mod random;
mod samples;
mod search;
mod sequential;
mod texts;
mod weaken;
mod wrong;
mod wrong_one_line;

use std::collections::{BTreeMap, BTreeSet};
use std::process::ExitCode;
use std::time::Instant;

use checker::{Archive, Checker};
use compare::{Comparer, CHECK_OF_CHANNEL, CHECK_OF_LOST, CHECK_OF_WINDOW};
use random::Random;

type Group = (&'static str, fn(&mut Comparer, &mut Random, usize));

const GROUPS: &[Group] = &[
    ("samples of document 01", group_stated::samples),
    ("texts with stated faults", group_stated::texts),
    ("stated weakenings", group_stated::weakenings),
    ("lines of objects", group_lines::objects),
    ("lines of events", group_lines::events),
    ("lines of certificates", group_lines::certificates),
    ("faults at every line", group_places::lines),
    ("11 to 13 at every event", group_places::events),
    ("14 to 16 at every view", group_places::views),
    ("replays", group_places::replays),
    ("valid texts", group_random::valid),
    ("damaged records", group_random::records),
    ("damaged texts", group_random::texts),
    ("random bytes", group_random::bytes),
    ("limits of length", group_limits::limits),
    ("the line that a fault carries", group_carried::faults),
    ("buffers", group_memory::buffers),
    ("slices of places", group_memory::slices),
    ("texts with neighbours", group_memory::neighbours),
    ("weakened texts accepted", group_weaken::accepted),
    ("weakening into buffers", group_weaken::buffers),
    ("weakening damaged texts", group_weaken::damaged),
    ("every list, two events", group_meets::every_list),
    ("brute force and check", group_meets::exhaustive),
    ("brute force and search", group_meets::searched),
    ("samples and figure 3", group_meets::claimed),
    ("slices that are NULL", group_memory::nulls),
    ("weakening too long texts", group_weaken::too_long),
    ("lost answers filled in", group_meets::filled_in),
    ("lost answers, criteria apart", group_meets::lost_apart),
    ("stated of channels", group_stated::channels),
    ("limits of width", group_limits::widths),
    ("the last slot of every capacity", group_channels::last_slot),
    ("channels that get full", group_channels::crowds),
    ("channels, brute force and check", group_meets::refused),
    ("channels, criteria apart", group_meets::channels_apart),
    ("written lists of events", group_lists::events),
    ("written lists of values", group_lists::values),
    ("stated of windows", group_stated::windows),
    ("the last values of every width", group_windows::last_values),
    ("windows from their first read on", group_windows::scans),
    ("windows, brute force and check", group_meets::short_reads),
    ("windows, criteria apart", group_meets::windows_apart),
    ("stated lines of faults", group_stated::lines),
    ("stated of strict", group_stated::strict),
    ("strict by broadcast logs", group_strict::logs),
    ("20 at every view", group_strict::views),
    ("strict, all pairs into buffers", group_strict::pairs),
    ("stated of one line", group_one_line::stated),
    ("one line of ordered updates", group_one_line::loaders),
    ("two updates unordered", group_one_line::crossings),
    ("one line, damaged texts", group_one_line::damaged),
    ("one line, pram and sequential", group_one_line::no_sources),
    ("one line, brute force", group_one_line::brute),
    ("one line, sizes and buffers", group_one_line::sizes),
];

/// The numbers that each function must have answered in a whole run.
const EXPECTED: &[(&str, &[u32])] = &[
    ("check", &[0, 1, 2, 3, 4, 5, 6, 11, 12, 13, 14, 15, 16, 20]),
    (CHECK_OF_LOST, &[0, 1, 2, 3, 4, 5, 6, 11, 12, 13, 14, 15, 16, 20]),
    (CHECK_OF_CHANNEL, &[0, 1, 2, 3, 4, 5, 6, 11, 12, 13, 14, 15, 16, 20]),
    (CHECK_OF_WINDOW, &[0, 1, 2, 3, 4, 5, 6, 11, 12, 13, 14, 15, 16, 20]),
    ("verdict", &[0, 1, 2, 3, 4, 5, 6, 11, 12, 13, 14, 15, 16, 20]),
    ("rewrite_history", &[0, 1, 2, 3, 4, 5, 18]),
    ("rewrite_certificate", &[0, 1, 2, 3, 4, 5, 6, 18]),
    ("weaken", &[0, 1, 2, 3, 4, 5, 6, 11, 12, 13, 14, 15, 16, 17, 18, 20]),
    ("sequential", &[0, 1, 2, 3, 4, 5, 6, 11, 12, 13, 14, 15, 16, 17, 18, 20, 26]),
];

/// Runs one group on a checker. Each group has its own numbers, so that one group's change doesn't change another's.
fn run_group(comparer: &mut Comparer, index: usize, seed: u64, rounds: usize) {
    let mut random = Random::new(seed.wrapping_mul(1_000_003).wrapping_add(index as u64));
    (GROUPS[index].1)(comparer, &mut random, rounds);
}

/// The groups whose answers are stated one by one: wrong checkers see them first, in this order.
const STATED: [&str; 8] = [
    "samples of document 01", "stated lines of faults", "stated of channels", "stated of windows", "stated of strict",
    "texts with stated faults", "stated weakenings", "stated of one line",
];

/// The groups with long texts at every place take their time: wrong checkers see them last.
const SLOW: [&str; 3] = ["faults at every line", "11 to 13 at every event", "14 to 16 at every view"];

/// The first group that finds a wrong checker, and after how many comparisons: the stated groups, those between with
/// few rounds and then with more, and the slow ones.
fn found(checker: &dyn Checker, seed: u64) -> Option<(&'static str, u64)> {
    let index_of = |name: &&str| GROUPS.iter().position(|group| group.0 == *name).expect("there is such a group");
    let first: Vec<usize> = STATED.iter().map(index_of).collect();
    let last: Vec<usize> = SLOW.iter().map(index_of).collect();
    let between: Vec<usize> = (0..GROUPS.len()).filter(|index| ![&first[..], &last].concat().contains(index)).collect();
    let mut comparer = Comparer::new(checker, true);
    for (rounds, groups) in [(20, &first), (20, &between), (400, &between), (400, &last)] {
        for index in groups {
            run_group(&mut comparer, *index, seed, rounds);
            if comparer.done() {
                return Some((GROUPS[*index].0, comparer.count));
            }
        }
    }
    None
}

fn main() -> ExitCode {
    let arguments: Vec<String> = std::env::args().skip(1).collect();
    let number = |place: usize, otherwise: u64| match arguments.get(place) {
        None => otherwise,
        Some(argument) => argument.parse().unwrap_or_else(|_| panic!("not a number: {argument}")),
    };
    let seed = number(0, 20_160_312);
    let rounds = number(1, 4_000) as usize;
    println!("seed {seed}, {rounds} rounds");

    let mut count = 0;
    let mut differences = 0;
    let mut answers: BTreeMap<(&str, u32), u64> = BTreeMap::new();
    let mut places: BTreeSet<[u32; 5]> = BTreeSet::new();
    for (index, group) in GROUPS.iter().enumerate() {
        let begin = Instant::now();
        let mut comparer = Comparer::new(&Archive, false);
        run_group(&mut comparer, index, seed, rounds);
        for (key, times) in &comparer.answers {
            *answers.entry(*key).or_default() += times;
        }
        places.extend(&comparer.places);
        count += comparer.count;
        differences += comparer.differences;
        let seconds = begin.elapsed().as_secs_f64();
        println!("{}: {} comparisons, {} differences, {seconds:.1} s", group.0, comparer.count, comparer.differences);
    }

    // Every fault number was there.
    for (function, numbers) in EXPECTED {
        let seen: Vec<String> = answers.iter().filter(|(key, _)| key.0 == *function).map(|(key, times)| format!("{} {times}x", key.1)).collect();
        println!("answers of {function}: {}", seen.join(", "));
        // A run of very few rounds may miss one.
        for number in numbers.iter().filter(|_| rounds >= 500) {
            count += 1;
            if !answers.contains_key(&(*function, *number)) {
                println!("{function} never answered {number}");
                differences += 1;
            }
        }
    }

    let distinct = |answer: u32| places.iter().filter(|place| place[0] == answer).count();
    let seen: Vec<String> = (0..=20).filter(|answer| distinct(*answer) > 0).map(|answer| format!("{answer} {}", distinct(answer))).collect();
    println!("different places of each answer: {}", seen.join(", "));

    let checkers = wrong::wrong_checkers();
    let begin = Instant::now();
    let mut bitten = 0;
    for (name, checker) in &checkers {
        match found(checker.as_ref(), seed) {
            Some((group, comparisons)) => {
                println!("wrong: {name}: found by \"{group}\" after {comparisons} comparisons");
                bitten += 1;
            }
            None => println!("wrong: {name}: NOT FOUND"),
        }
    }
    println!("wrong checkers: {bitten} found, {:.1} s", begin.elapsed().as_secs_f64());

    println!("{count} comparisons, {differences} differences; {bitten} wrong checkers found of {}", checkers.len());
    if differences == 0 && bitten == checkers.len() { ExitCode::SUCCESS } else { ExitCode::FAILURE }
}
