//! The operations: what each answers, by the lengths of what is lent. What the strips hold afterwards follows from the answer.

use crate::checker::{check as judge, menu as order};
use crate::device::REGISTERS;
use crate::encoder::encoded;
use crate::frame_machine::{self, FrameLimits, FrameReport, Record, Strips, MARKS_MOST};
use crate::frames::{self, Frame};
use crate::lexer::tokens;
use crate::machine::{run as perform, Limits, Report};
use crate::parser;
use crate::printer;
use crate::refusal::{refuse, Refusal};
use crate::tree::{Class, Measure, Program};

pub const TABLE_LEAST: usize = 16384;
const HEAP_MOST: usize = 16384;
const CALLS_MOST: usize = 64;
pub const STACK_LEAST: usize = 140000;
const PRICES: [u32; 2] = [1, 10];

/// Tokens, nodes and the tree.
pub struct Reading {
    pub tokens: usize,
    pub nodes: usize,
    pub program: Program,
}

fn wide_enough(table: usize) -> Result<(), Refusal> {
    if table < TABLE_LEAST {
        return refuse(1, 0);
    }
    Ok(())
}

pub fn read(source: &[u8], table: usize) -> Result<Reading, Refusal> {
    wide_enough(table)?;
    let tokens = tokens(source)?;
    let program = parser::program(&tokens, source.len())?;
    let nodes = shallow(Measure::of(&program))?;
    Ok(Reading { tokens: tokens.len(), nodes, program })
}

/// The number of nodes, none of which is too deep.
fn shallow(measure: Measure) -> Result<usize, Refusal> {
    measure.deep.map_or(Ok(measure.nodes), |at| refuse(17, at))
}

/// The classes of a library, by the rules and within the bounds by which a lesson is read.
fn read_library(source: &[u8]) -> Result<Vec<Class>, Refusal> {
    let classes = parser::library(&tokens(source)?, source.len())?;
    shallow(Measure::of_classes(&classes))?;
    Ok(classes)
}

/// The classes of a library whose names no class of the lesson has, main included.
pub fn kept(lesson: &Program, library: &[u8]) -> Result<Vec<Class>, Refusal> {
    let is_taken = |name: &str| lesson.main.name == name || lesson.classes.iter().any(|c| c.id.name == name);
    Ok(read_library(library)?.into_iter().filter(|c| !is_taken(&c.id.name)).collect())
}

/// Request (x): the lesson, a line feed, then each class of the library that is kept, a line feed after each.
pub fn join(source: &[u8], table: usize, library: &[u8], strip: usize) -> Result<Vec<u8>, Refusal> {
    let lesson = read(source, table)?.program;
    let classes = kept(&lesson, library).or_else(|fault| refuse(66, fault.at))?;
    let mut text = [source, b"\n"].concat();
    for class in classes {
        text.extend(&library[class.at..class.end]);
        text.push(b'\n');
    }
    if strip < text.len() {
        return refuse(67, 0);
    }
    Ok(text)
}

pub fn check(source: &[u8], table: usize) -> Result<Program, Refusal> {
    let program = read(source, table)?.program;
    judge(&program)?;
    Ok(program)
}

pub fn menu(source: &[u8], table: usize, strip: usize) -> Result<Vec<usize>, Refusal> {
    let program = check(source, table)?;
    if strip < program.classes.len() {
        return refuse(4, 0);
    }
    Ok(order(&program))
}

/// Request (v): the lesson in the house layout.
pub fn print(source: &[u8], table: usize, strip: usize) -> Result<Vec<u8>, Refusal> {
    let text = printer::text(&check(source, table)?);
    if strip < text.len() {
        return refuse(61, 0);
    }
    Ok(text.into_bytes())
}

/// The bounds of what is lent for a run.
fn runnable(calls: usize, heap: usize, registers: usize) -> Result<(), Refusal> {
    if calls == 0 || calls > CALLS_MOST {
        return refuse(2, 0);
    }
    if heap > HEAP_MOST {
        return refuse(3, 0);
    }
    if registers != REGISTERS {
        return refuse(62, 0);
    }
    Ok(())
}

pub fn run(source: &[u8], table: usize, limits: Limits, registers: usize, tape: &[u8]) -> Result<Report, Refusal> {
    wide_enough(table)?;
    runnable(limits.calls, limits.heap, registers)?;
    Ok(perform(&check(source, table)?, limits, tape))
}

/// Request (xii): the lesson as frames.
pub fn encode(source: &[u8], table: usize, strip: usize) -> Result<Vec<u8>, Refusal> {
    let text = frames::text(&encoded(&check(source, table)?));
    if strip < text.len() {
        return refuse(68, 0);
    }
    Ok(text)
}

/// The frames of a text that can be run with what is lent.
fn runnable_frames(text: &[u8], limits: FrameLimits, strips: &Strips) -> Result<Vec<Frame>, Refusal> {
    runnable(limits.calls, strips.heap.len(), strips.registers.len())?;
    if !PRICES.contains(&limits.price) {
        return refuse(72, 0);
    }
    if strips.stack.len() < STACK_LEAST {
        return refuse(68, 0);
    }
    frames::frames(text)
}

/// Request (xii): a run of frames, or its first part. A refusal changes no strip.
pub fn run_frames(text: &[u8], limits: FrameLimits, strips: &mut Strips, tape: &[u8]) -> Result<FrameReport, Refusal> {
    let frames = runnable_frames(text, limits, strips)?;
    strips.clear_work();
    strips.registers.fill(0);
    Ok(frame_machine::run(&frames, Record::default(), limits, strips, tape))
}

/// Whether a record fits what a part is given.
fn is_fitting(r: &Record, lines: usize, limits: FrameLimits, strips: &Strips, tape: &[u8]) -> bool {
    let are_places_fitting = r.line < lines && r.height <= strips.room() && r.calls <= limits.calls && r.marks <= MARKS_MOST;
    let are_counts_fitting = r.words <= strips.heap.len() && r.printed <= strips.output.len() && r.tape <= tape.len();
    let sum = u128::from(r.frames) + u128::from(r.unspent) + u128::from(limits.budget);
    are_places_fitting && are_counts_fitting && sum <= u128::from(u32::MAX)
}

/// Request (xiii): a further part. A refusal changes no strip.
pub fn continue_frames(text: &[u8], record: Record, limits: FrameLimits, strips: &mut Strips, tape: &[u8]) -> Result<FrameReport, Refusal> {
    let frames = runnable_frames(text, limits, strips)?;
    if !is_fitting(&record, frames.len(), limits, strips, tape) {
        return refuse(71, 0);
    }
    Ok(frame_machine::run(&frames, record, limits, strips, tape))
}
