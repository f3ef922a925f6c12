//! Lines of cases whose frames are run, in one or more parts, and their answers.

use crate::cases::{bytes, digits, listed, Answerer};
use crate::frame_machine::{FrameLimits, FrameReport, Record, Strips, SPENT};
use crate::library_frames;
use crate::operations;
use crate::refusal::Refusal;
use std::str::{FromStr, Split};

/// What strips hold before a run that does not take it.
const FILLING: u8 = 0x5a;
/// Sums of strips are taken modulo a prime.
const MODULUS: u64 = 2147483647;
const FACTOR: u64 = 65537;

/// A run with its parts; the first takes the record where there is one.
struct Case {
    record: Option<Record>,
    calls: usize,
    strips: Strips,
    tape: Vec<u8>,
    parts: Vec<(u32, u32)>,
    text: Vec<u8>,
}

/// The words of a line, from left to right.
struct Words<'a>(Split<'a, char>);

impl Words<'_> {
    fn number<N: FromStr>(&mut self) -> Option<N> {
        self.0.next()?.parse().ok()
    }

    fn bytes(&mut self) -> Option<Vec<u8>> {
        bytes(self.0.next()?)
    }

    fn record(&mut self) -> Option<Record> {
        Some(Record {
            line: self.number()?,
            height: self.number()?,
            calls: self.number()?,
            words: self.number()?,
            printed: self.number()?,
            tape: self.number()?,
            marks: self.number()?,
            frames: self.number()?,
            unspent: self.number()?,
        })
    }

    fn parts(&mut self) -> Option<Vec<(u32, u32)>> {
        (0..self.number::<usize>()?).map(|_| Some((self.number()?, self.number()?))).collect()
    }

    /// Puts the entries into a strip that are not 0.
    fn hold<N: FromStr + Default + Clone>(&mut self, strip: &mut [N]) -> Option<()> {
        strip.fill(N::default());
        for _ in 0..self.number::<usize>()? {
            let place: usize = self.number()?;
            *strip.get_mut(place)? = self.number()?;
        }
        Some(())
    }

    /// A text of frames: in hexadecimal digits after `=`, or as it is, with `/` for line feeds.
    fn text(&mut self) -> Option<Vec<u8>> {
        let word = self.0.next()?;
        match word.strip_prefix('=') {
            Some(hex) => bytes(hex),
            None if word == "-" => Some(Vec::new()),
            None => Some(word.replace('/', "\n").into_bytes()),
        }
    }
}

/// A case of which nothing but its name has been taken.
fn case(words: &mut Words, is_continued: bool) -> Option<Case> {
    let record = if is_continued { Some(words.record()?) } else { None };
    let calls = words.number()?;
    let heap = vec![i32::from(FILLING); words.number()?];
    let output = vec![i32::from(FILLING); words.number()?];
    let registers = if is_continued { words.bytes()? } else { vec![FILLING; words.number()?] };
    let stack = vec![u64::from(FILLING); words.number()?];
    let mut strips = Strips { heap, output, registers, stack };
    let tape = words.bytes()?;
    let parts = words.parts()?;
    if is_continued {
        words.hold(&mut strips.heap)?;
        words.hold(&mut strips.stack)?;
    }
    Some(Case { record, calls, strips, tape, parts, text: words.text()? })
}

/// How many entries of a strip are not 0, and a sum of them and their places.
fn summed(entries: impl Iterator<Item = u64>) -> String {
    let mut count = 0;
    let mut sum = 0;
    for (place, entry) in entries.enumerate().filter(|(_, entry)| *entry != 0) {
        count += 1;
        sum = (FACTOR * sum + place as u64 + 1) % MODULUS;
        sum = (FACTOR * sum + entry % MODULUS) % MODULUS;
    }
    format!("{} {}", count, sum)
}

fn paused(r: &Record, strips: &Strips) -> String {
    let places = format!("{} {} {} {} {} {} {} {} {}", r.line, r.height, r.calls, r.words, r.printed, r.tape, r.marks, r.frames, r.unspent);
    let heap = summed(strips.heap.iter().map(|&word| u64::from(word as u32)));
    format!(" @ {} {} {}", places, heap, summed(strips.stack.iter().copied()))
}

/// The answer of the part that is the so-manieth, after which the output strip has new numbers from a place on.
fn ended(r: &FrameReport, part: usize, strips: &Strips, printed_before: usize) -> String {
    let counts = format!("{} {} {} {} {} {} {}", r.number, r.at, r.frames, r.words, r.printed, part, digits(&strips.registers));
    let pause = if r.number == SPENT { paused(&r.record, strips) } else { String::new() };
    listed(counts + &pause, &strips.output[printed_before..r.printed])
}

impl Case {
    fn part(&mut self, who: Answerer, budget: u32, price: u32) -> Result<FrameReport, Refusal> {
        let limits = FrameLimits { budget, calls: self.calls, price };
        match (who, self.record) {
            (Answerer::Reference, None) => operations::run_frames(&self.text, limits, &mut self.strips, &self.tape),
            (Answerer::Reference, Some(r)) => operations::continue_frames(&self.text, r, limits, &mut self.strips, &self.tape),
            (Answerer::Binding, record) => library_frames::report(&self.text, record, limits, &mut self.strips, &self.tape),
        }
    }

    /// The answer of the first part that ends otherwise than in 50, else of the last.
    fn answer(&mut self, who: Answerer) -> String {
        let printed_before = self.record.map_or(0, |r| r.printed);
        let mut answer = String::new();
        for (k, (budget, price)) in self.parts.clone().into_iter().enumerate() {
            match self.part(who, budget, price) {
                Ok(r) => {
                    answer = ended(&r, k + 1, &self.strips, printed_before);
                    self.record = Some(r.record);
                    if r.number != SPENT {
                        break;
                    }
                }
                Err(r) => return format!("{} {} 0 0 0 {} -", r.number, r.at, k + 1),
            }
        }
        answer
    }
}

/// The answer to a line `frames ..` or `continue ..`, or none where it is no case.
pub fn answer(who: Answerer, line: &str) -> Option<String> {
    let mut words = Words(line.split(' '));
    let is_continued = words.0.next()? == "continue";
    let mut case = case(&mut words, is_continued)?;
    if words.0.next().is_some() || case.parts.is_empty() {
        return None;
    }
    Some(case.answer(who))
}
