//! Lines of cases, as the program `cases` takes them, and their answers: of the independent implementation, or of the safe binding over the library.

use crate::frame_cases;
use crate::machine::{Limits, Report};
use crate::operations;
use crate::refusal::Refusal;
use std::fmt::Write;

/// Who answers. A table is always long enough for the binding, and a strip: it lends its own, but for runs of frames.
#[derive(Clone, Copy)]
pub enum Answerer {
    Reference,
    Binding,
}

fn of_binding(r: lesson_engine::Refusal) -> Refusal {
    Refusal { number: r.kind.number(), at: r.position }
}

impl Answerer {
    fn read(self, source: &[u8], table: usize) -> Result<(usize, usize), Refusal> {
        match self {
            Answerer::Reference => operations::read(source, table).map(|r| (r.tokens, r.nodes)),
            Answerer::Binding => lesson_engine::read(source).map(|s| (s.tokens, s.nodes)).map_err(of_binding),
        }
    }

    fn check(self, source: &[u8], table: usize) -> Result<usize, Refusal> {
        match self {
            Answerer::Reference => operations::check(source, table).map(|p| p.classes.len()),
            Answerer::Binding => lesson_engine::check(source).map_err(of_binding),
        }
    }

    fn menu(self, source: &[u8], table: usize, strip: usize) -> Result<Vec<usize>, Refusal> {
        match self {
            Answerer::Reference => operations::menu(source, table, strip),
            Answerer::Binding => lesson_engine::menu(source).map_err(of_binding),
        }
    }

    fn print(self, source: &[u8], table: usize, strip: usize) -> Result<Vec<u8>, Refusal> {
        match self {
            Answerer::Reference => operations::print(source, table, strip),
            Answerer::Binding => lesson_engine::tidy(source).map_err(of_binding),
        }
    }

    fn join(self, source: &[u8], table: usize, library: &[u8], strip: usize) -> Result<Vec<u8>, Refusal> {
        match self {
            Answerer::Reference => operations::join(source, table, library, strip),
            Answerer::Binding => lesson_engine::join(source, library).map_err(of_binding),
        }
    }

    fn encode(self, source: &[u8], table: usize, strip: usize) -> Result<Vec<u8>, Refusal> {
        match self {
            Answerer::Reference => operations::encode(source, table, strip),
            Answerer::Binding => lesson_engine::frames(source).map_err(of_binding),
        }
    }

    fn run(self, source: &[u8], table: usize, limits: Limits, registers: usize, tape: &[u8]) -> Result<Report, Refusal> {
        if let Answerer::Reference = self {
            return operations::run(source, table, limits, registers, tape);
        }
        let bounds = lesson_engine::Limits { budget: limits.budget, calls: limits.calls, heap: limits.heap, output: limits.output };
        let run = lesson_engine::run(source, &bounds, tape).map_err(of_binding)?;
        let end = run.end.map_or(Refusal { number: 0, at: 0 }, of_binding);
        Ok(Report {
            number: end.number,
            at: end.at,
            steps: run.steps as u64,
            climbs: run.climbs,
            words: run.words as u64,
            printed: run.printed,
            registers: run.registers,
        })
    }
}

pub fn bytes(hex: &str) -> Option<Vec<u8>> {
    if hex == "-" {
        return Some(Vec::new());
    }
    if hex.len() % 2 != 0 || !hex.is_ascii() {
        return None;
    }
    (0..hex.len()).step_by(2).map(|k| u8::from_str_radix(&hex[k..k + 2], 16).ok()).collect()
}

pub fn listed<N: ToString>(answer: String, numbers: &[N]) -> String {
    if numbers.is_empty() {
        return answer;
    }
    let words: Vec<String> = numbers.iter().map(N::to_string).collect();
    answer + " : " + &words.join(" ")
}

/// A refusal gives zero counts.
fn refused(r: Refusal, counts: &str) -> String {
    format!("{} {}{}", r.number, r.at, counts)
}

pub fn digits(bytes: &[u8]) -> String {
    let mut digits = String::new();
    bytes.iter().for_each(|b| write!(digits, "{:02x}", b).expect("a string takes all"));
    digits
}

fn ran(r: Report) -> String {
    listed(format!("{} {} {} {} {} {}", r.number, r.at, r.steps, r.climbs, r.words, digits(&r.registers)), &r.printed)
}

/// The answer of an operation that writes a text.
fn wrote(answer: Result<Vec<u8>, Refusal>) -> String {
    match answer {
        Ok(text) => format!("0 0 {} : {}", text.len(), digits(&text)),
        Err(r) => refused(r, " 0"),
    }
}

/// Frames, with `/` for the line feeds, so that they are one word.
fn encoded(answer: Result<Vec<u8>, Refusal>) -> String {
    match answer {
        Ok(text) => format!("0 0 {} : {}", text.len(), String::from_utf8_lossy(&text).replace('\n', "/")),
        Err(r) => refused(r, " 0"),
    }
}

/// The answer to a line that is a case, or none.
pub fn answer(who: Answerer, line: &str) -> Option<String> {
    let words: Vec<&str> = line.split(' ').collect();
    let number = |k: usize| words[k].parse::<usize>().ok();
    match (words[0], words.len()) {
        ("read", 3) => Some(match who.read(&bytes(words[2])?, number(1)?) {
            Ok((tokens, nodes)) => format!("0 0 {} {}", tokens, nodes),
            Err(r) => refused(r, " 0 0"),
        }),
        ("check", 3) => Some(match who.check(&bytes(words[2])?, number(1)?) {
            Ok(classes) => format!("0 0 {}", classes),
            Err(r) => refused(r, " 0"),
        }),
        ("menu", 4) => Some(match who.menu(&bytes(words[3])?, number(1)?, number(2)?) {
            Ok(positions) => listed(format!("0 0 {}", positions.len()), &positions),
            Err(r) => refused(r, " 0"),
        }),
        ("run", 9) => {
            let limits = Limits { budget: words[2].parse().ok()?, calls: number(3)?, heap: number(4)?, output: number(5)? };
            Some(match who.run(&bytes(words[8])?, number(1)?, limits, number(6)?, &bytes(words[7])?) {
                Ok(r) => ran(r),
                Err(r) => refused(r, " 0 0 0 -"),
            })
        }
        ("print", 4) => Some(wrote(who.print(&bytes(words[3])?, number(1)?, number(2)?))),
        ("join", 5) => Some(wrote(who.join(&bytes(words[3])?, number(1)?, &bytes(words[4])?, number(2)?))),
        ("encode", 4) => Some(encoded(who.encode(&bytes(words[3])?, number(1)?, number(2)?))),
        ("frames" | "continue", _) => frame_cases::answer(who, line),
        _ => None,
    }
}
