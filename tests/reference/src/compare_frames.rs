//! The library beside the independent implementation, on frames: written, run and continued, with damaged texts, records and strips.

use crate::compare::{is_text_right, limits, mostly, strip_for, tape, Met};
use crate::frame_damage::{damage_record, damage_strips, damaged};
use crate::frame_machine::{FrameLimits, FrameReport, Record, Strips, SPENT};
use crate::frame_properties::{Part, Setting};
use crate::lent::Strip;
use crate::library_frames::{self, given};
use crate::operations::{self, STACK_LEAST};
use crate::random::Random;
use crate::refusal::Refusal;
use lesson_engine::{strips, sys};

const PARTS_MOST: usize = 5;

/// Enough for the frames of every lesson that ends within the most steps of `limits`.
const LAST_PART: Part = (100000, 1);

fn is_encode_right(source: &[u8], table: usize, strip: usize, met: &mut Met) -> bool {
    let mut words = Strip::new(table);
    let mut written = Strip::new(strip);
    let answer = strips::encode(source, words.lent(), written.lent());
    is_text_right(operations::encode(source, table, strip), answer, &words, &written, met)
}

/// What is lent to the library for frames, and holds what it holds for the independent implementation.
struct Lent {
    heap: Strip<i32>,
    output: Strip<i32>,
    registers: Strip<u8>,
    stack: Strip<u64>,
}

impl Lent {
    fn of(strips: &Strips) -> Lent {
        Lent {
            heap: Strip::holding(&strips.heap),
            output: Strip::holding(&strips.output),
            registers: Strip::holding(&strips.registers),
            stack: Strip::holding(&strips.stack),
        }
    }

    fn is_holding(&self, strips: &Strips) -> bool {
        let are_numbers_right = self.heap.is_holding(&strips.heap) && self.output.is_holding(&strips.output);
        are_numbers_right && self.registers.is_holding(&strips.registers) && self.stack.is_holding(&strips.stack)
    }

    fn run(&mut self, text: &[u8], record: Option<Record>, limits: FrameLimits, tape: &[u8]) -> sys::FramesAnswer {
        let lent = strips::LentToFrames {
            heap: self.heap.lent(),
            output: self.output.lent(),
            registers: self.registers.lent(),
            tape,
            stack: self.stack.lent(),
        };
        library_frames::run(text, record, limits, lent)
    }
}

/// The answer that is due. A refusal gives zero counts and a record of zeros.
fn due(ended: Result<FrameReport, Refusal>) -> sys::FramesAnswer {
    let refused = |r: Refusal| FrameReport { number: r.number, at: r.at, frames: 0, words: 0, printed: 0, record: Record::default() };
    let r = ended.unwrap_or_else(refused);
    sys::FramesAnswer {
        number: r.number,
        position: r.at as u64,
        frames: r.frames,
        words: r.words,
        printed: r.printed,
        pause: given(r.record),
    }
}

/// What is lent for a run: of lengths that are mostly allowed, and not 0.
fn lent(random: &mut Random, heap: usize, output: usize) -> Strips {
    Strips {
        heap: vec![7; heap],
        output: vec![7; output],
        registers: vec![7; mostly(random, &[16], &[0, 15, 17])],
        stack: vec![7; mostly(random, &[STACK_LEAST, STACK_LEAST, STACK_LEAST + 1], &[0, STACK_LEAST - 1])],
    }
}

fn parts(random: &mut Random) -> Vec<Part> {
    let budgets = [0, 1, 2, 5, 9, 10, 11, 20, 100, 101, 300, 1000, 5000, 20000];
    (0..1 + random.below(PARTS_MOST)).map(|_| (random.pick(&budgets), random.pick(&[1, 10]))).collect()
}

/// Runs a text in parts, by both; some are given a changed record or strip, or a price that is none. Whether all answers and strips agree.
fn is_run_right(random: &mut Random, text: &[u8], met: &mut Met) -> bool {
    let chosen = limits(random);
    let tape = tape(random);
    let mut strips = lent(random, chosen.heap, chosen.output);
    let mut record = None;
    for (budget, price) in parts(random) {
        let price = if random.once_in(30) { random.pick(&[0, 2, 9, 11, u32::MAX]) } else { price };
        let limits = FrameLimits { budget, calls: chosen.calls, price };
        let mut shown = Lent::of(&strips);
        let answer = shown.run(text, record, limits, &tape);
        let ended = match record {
            None => operations::run_frames(text, limits, &mut strips, &tape),
            Some(r) => operations::continue_frames(text, r, limits, &mut strips, &tape),
        };
        let due = due(ended);
        *met.entry(due.number).or_default() += 1;
        if answer != due || !shown.is_holding(&strips) {
            return false;
        }
        let mut next = match ended {
            Ok(report) if report.number == SPENT || random.once_in(4) => report.record,
            _ => break,
        };
        if random.once_in(6) {
            damage_strips(random, &next, &mut strips);
        }
        if random.once_in(6) {
            damage_record(random, &mut next);
        }
        record = Some(next);
    }
    true
}

/// What the requests say of a text of frames and, where it is that of a lesson, of the lesson.
fn property_results(random: &mut Random, text: &[u8], lesson: Option<&[u8]>) -> Vec<(&'static str, bool)> {
    let tape = tape(random);
    let setting = Setting { text, limits: limits(random), tape: &tape };
    let parts = parts(random);
    let budgets: Vec<u32> = parts.iter().map(|part| part.0).collect();
    let mut results = vec![
        ("frames in parts", setting.are_parts_right(&budgets, parts[0].1)),
        ("frames at both prices", setting.are_prices_right(&parts)),
    ];
    if let Some(source) = lesson {
        results.push(("frames beside run", setting.is_run_kept(source, &[&parts[..], &[LAST_PART]].concat())));
        results.push(("frames by steps", setting.are_frames_bounded(source)));
    }
    results
}

/// The lesson written as frames, these run and continued, and what the requests say of them.
pub fn results(random: &mut Random, source: &[u8], table: usize, met: &mut Met) -> Vec<(&'static str, bool)> {
    let due = operations::encode(source, table, usize::MAX);
    let strip = strip_for(random, &due);
    let mut results = vec![("encode", is_encode_right(source, table, strip, met))];
    if let Ok(text) = due {
        let other = damaged(random, &text);
        results.push(("frames", is_run_right(random, &text, met)));
        results.push(("damaged frames", is_run_right(random, &other, met)));
        results.extend(property_results(random, &text, Some(source)));
        results.extend(property_results(random, &other, None));
    }
    results
}
