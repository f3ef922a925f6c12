//! The library beside the independent implementation, on lessons from a seed: answers, and what every strip holds afterwards.

use crate::compare_frames;
use crate::damage::damaged;
use crate::generator::{self, lesson, Size};
use crate::lent::Strip;
use crate::machine::Limits;
use crate::operations;
use crate::properties;
use crate::random::Random;
use crate::refusal::Refusal;
use lesson_engine::{strips, sys, Kind};
use std::collections::BTreeMap;

/// These touch nothing.
const UNTOUCHED: [u32; 4] = [1, 2, 3, 62];

/// How often a lesson is run, under other limits each time.
const RUNS: usize = 4;

/// How often each number was answered.
pub type Met = BTreeMap<u32, usize>;

fn is_untouched(number: u32) -> bool {
    UNTOUCHED.contains(&number)
}

/// Whether a table or the heap strip is as it must be after this answer.
fn is_cleared<T: crate::lent::Filling>(strip: &Strip<T>, number: u32) -> bool {
    if is_untouched(number) { strip.is_unchanged() } else { strip.is_zero() }
}

fn refused<T>(answer: &Result<T, Refusal>) -> (u32, usize) {
    match answer {
        Ok(_) => (0, 0),
        Err(r) => (r.number, r.at),
    }
}

fn is_read_right(source: &[u8], table: usize, met: &mut Met) -> bool {
    let expected = operations::read(source, table);
    let (number, position) = refused(&expected);
    let (tokens, nodes) = expected.map_or((0, 0), |r| (r.tokens, r.nodes));
    let mut words = Strip::new(table);
    let answer = strips::read(source, words.lent());
    *met.entry(number).or_default() += 1;
    answer == sys::ReadAnswer { number, position, tokens, nodes } && is_cleared(&words, number)
}

fn is_check_right(source: &[u8], table: usize, met: &mut Met) -> bool {
    let expected = operations::check(source, table);
    let (number, position) = refused(&expected);
    let classes = expected.map_or(0, |p| p.classes.len());
    let mut words = Strip::new(table);
    let answer = strips::check(source, words.lent());
    *met.entry(number).or_default() += 1;
    answer == sys::CheckAnswer { number, position, classes } && is_cleared(&words, number)
}

fn is_menu_right(source: &[u8], table: usize, strip: usize, met: &mut Met) -> bool {
    let expected = operations::menu(source, table, strip);
    let (number, position) = refused(&expected);
    let positions: Vec<u32> = expected.map_or(Vec::new(), |p| p.into_iter().map(|at| at as u32).collect());
    let mut words = Strip::new(table);
    let mut listed = Strip::new(strip);
    let answer = strips::menu(source, words.lent(), listed.lent());
    *met.entry(number).or_default() += 1;
    answer == sys::CheckAnswer { number, position, classes: positions.len() } && is_cleared(&words, number) && listed.begins(positions.into_iter())
}

fn is_run_right(source: &[u8], table: usize, limits: Limits, registers: usize, tape: &[u8], met: &mut Met) -> bool {
    let expected = operations::run(source, table, limits, registers, tape);
    let mut words = Strip::new(table);
    let mut heap = Strip::<i32>::new(limits.heap);
    let mut output = Strip::<i32>::new(limits.output);
    let mut shown = Strip::<u8>::new(registers);
    let bounds = sys::Limits { budget: limits.budget, calls: limits.calls };
    let lent = strips::Lent { heap: heap.lent(), output: output.lent(), registers: shown.lent(), tape };
    let answer = strips::run(source, words.lent(), bounds, lent);
    let (due, are_strips_right) = match expected {
        Ok(r) => (
            sys::RunAnswer { number: r.number, position: r.at, steps: r.steps as usize, climbs: r.climbs, words: r.words as usize, printed: r.printed.len() },
            output.begins(r.printed.into_iter()) && shown.begins(r.registers.into_iter()),
        ),
        Err(r) => (
            sys::RunAnswer { number: r.number, position: r.at, steps: 0, climbs: 0, words: 0, printed: 0 },
            output.is_unchanged() && shown.is_unchanged(),
        ),
    };
    *met.entry(due.number).or_default() += 1;
    answer == due && are_strips_right && is_cleared(&words, due.number) && is_cleared(&heap, due.number)
}

/// Whether an operation that writes a text answers what is due, and leaves table and strip as they must be.
pub fn is_text_right(due: Result<Vec<u8>, Refusal>, answer: sys::WriteAnswer, words: &Strip<u32>, written: &Strip<u8>, met: &mut Met) -> bool {
    let (number, position) = refused(&due);
    let text = due.unwrap_or_default();
    *met.entry(number).or_default() += 1;
    let is_answer_right = answer == sys::WriteAnswer { number, position, count: text.len() };
    is_answer_right && is_cleared(words, number) && written.begins(text.into_iter())
}

fn is_join_right(source: &[u8], table: usize, library: &[u8], strip: usize, met: &mut Met) -> bool {
    let mut words = Strip::new(table);
    let mut written = Strip::new(strip);
    let answer = strips::join(source, words.lent(), library, written.lent());
    is_text_right(operations::join(source, table, library, strip), answer, &words, &written, met)
}

fn is_print_right(source: &[u8], table: usize, strip: usize, met: &mut Met) -> bool {
    let mut words = Strip::new(table);
    let mut written = Strip::new(strip);
    let answer = strips::print(source, words.lent(), written.lent());
    is_text_right(operations::print(source, table, strip), answer, &words, &written, met)
}

fn size(random: &mut Random) -> Size {
    match random.below(6) {
        0 => Size { classes: 1, members: 2, statements: 2, depth: 2 },
        1..=3 => Size { classes: 5, members: 4, statements: 4, depth: 3 },
        4 => Size { classes: 30, members: 1, statements: 2, depth: 2 },
        _ => Size { classes: 8, members: 5, statements: 6, depth: 4 },
    }
}

/// A length or limit that is mostly one of those that are allowed.
pub fn mostly(random: &mut Random, allowed: &[usize], others: &[usize]) -> usize {
    if random.once_in(20) { random.pick(others) } else { random.pick(allowed) }
}

/// How long a strip is lent for a text: too short by one, just long enough, long. Any length where no text is due.
pub fn strip_for(random: &mut Random, due: &Result<Vec<u8>, Refusal>) -> usize {
    let length = due.as_ref().map_or(1, Vec::len);
    random.pick(&[0, length - 1, length, length, length + 1, length + 2048])
}

/// A library, as it is or damaged: classes of which some have names that the lesson has, main's among them.
fn library(random: &mut Random) -> Vec<u8> {
    let wanted = size(random);
    let mut sound = generator::library(random, wanted);
    if random.once_in(4) {
        sound = format!("class {}{{}}// before all others\n{}", generator::MAIN, sound);
    }
    if random.once_in(2) { sound.into_bytes() } else { damaged(random, sound.as_bytes()) }
}

pub fn limits(random: &mut Random) -> Limits {
    Limits {
        budget: random.pick(&[0, 1, 2, 5, 20, 99, 100, 101, 300, 1000, 5000, 20000, 20000, 20000]),
        calls: mostly(random, &[1, 2, 3, 5, 20, 63, 64, 64, 64, 64, 64], &[0, 65, 1 << 40]),
        heap: mostly(random, &[0, 1, 2, 5, 50, 500, 4096, 4096, 4096, 16384, 16384], &[16385, 20000]),
        output: random.pick(&[0, 1, 2, 10, 256, 256, 256, 2000]),
    }
}

pub fn tape(random: &mut Random) -> Vec<u8> {
    (0..random.pick(&[0, 1, 5, 60])).map(|_| random.below(256) as u8).collect()
}

fn print_lesson(name: &str, seed: u64, source: &[u8]) {
    let hex: String = source.iter().map(|b| format!("{:02x}", b)).collect();
    println!("reference: {} of the lesson of seed {} differs: {}", name, seed, if hex.is_empty() { "-" } else { &hex });
}

/// The lesson joined with a library, and what the requests say of that text.
fn join_results(random: &mut Random, source: &[u8], table: usize, met: &mut Met) -> Vec<(&'static str, bool)> {
    let library = library(random);
    let due = operations::join(source, table, &library, usize::MAX);
    let strip = strip_for(random, &due);
    let mut results = vec![("join", is_join_right(source, table, &library, strip, met))];
    if let Ok(text) = due {
        results.push(("joined tree", properties::is_joined_right(source, &library, &text)));
        results.push(("joined run", properties::is_run_kept(source, &text, limits(random), &tape(random))));
    }
    results
}

/// The lesson printed, and what the request says of that text.
fn print_results(random: &mut Random, source: &[u8], table: usize, met: &mut Met) -> Vec<(&'static str, bool)> {
    let due = operations::print(source, table, usize::MAX);
    let strip = strip_for(random, &due);
    let mut results = vec![("print", is_print_right(source, table, strip, met))];
    if let Ok(text) = due {
        results.push(("printed text", properties::is_printed_right(random, source, &text)));
    }
    results
}

/// Compares all operations on the lesson of one seed; how many differ.
fn lesson_differences(seed: u64, met: &mut Met) -> usize {
    let mut random = Random::new(seed);
    let wanted = size(&mut random);
    let sound = lesson(&mut random, wanted).into_bytes();
    let source = if random.once_in(3) { sound } else { damaged(&mut random, &sound) };
    let table = mostly(&mut random, &[16384, 16384, 16385, 20000], &[0, 1, 16383]);
    let strip = random.pick(&[0, 1, 3, 40, 2048, 2048]);
    let mut results = vec![
        ("read", is_read_right(&source, table, met)),
        ("check", is_check_right(&source, table, met)),
        ("menu", is_menu_right(&source, table, strip, met)),
    ];
    for _ in 0..RUNS {
        let registers = mostly(&mut random, &[16], &[0, 15, 17]);
        let tape = tape(&mut random);
        let chosen = limits(&mut random);
        results.push(("run", is_run_right(&source, table, chosen, registers, &tape, met)));
    }
    results.extend(join_results(&mut random, &source, table, met));
    results.extend(print_results(&mut random, &source, table, met));
    results.extend(compare_frames::results(&mut random, &source, table, met));
    let wrong: Vec<&str> = results.iter().filter(|(_, is_right)| !is_right).map(|(name, _)| *name).collect();
    wrong.iter().for_each(|name| print_lesson(name, seed, &source));
    wrong.len()
}

/// Compares on the lessons of so many seeds. Whether all agree, and every number was met.
pub fn compare(first: u64, count: u64) -> bool {
    let mut met = Met::new();
    let wrong: usize = (first..first + count).map(|seed| lesson_differences(seed, &mut met)).sum();
    let missing: Vec<u32> = Kind::ALL.iter().map(|k| k.number()).filter(|n| !met.contains_key(n)).collect();
    let counts: Vec<String> = met.iter().map(|(number, times)| format!("{}: {}", number, times)).collect();
    println!("reference: {} lessons from seed {}, {} answers differ; how often each number was due: {}", count, first, wrong, counts.join(", "));
    if !missing.is_empty() {
        println!("reference: never met: {:?}", missing);
    }
    wrong == 0 && missing.is_empty()
}
