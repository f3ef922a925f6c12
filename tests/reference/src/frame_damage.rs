//! Frames, records and strips with something wrong with them, or something unusual, from a seed.

use crate::frame_machine::{Record, Strips};
use crate::frames::{self, Frame, CALL, ENTRY, LINE_BYTES, NONE, ROW};
use crate::random::Random;

const CALLS_ENTRIES: usize = 2176;

/// Words at the bounds of what the code table allows.
const WORDS: [u32; 12] = [0, 1, 2, 3, 15, 16, 31, 33, 255, 256, 1 << 31, u32::MAX];

fn word(random: &mut Random) -> u32 {
    if random.once_in(3) { random.below(64) as u32 } else { random.pick(&WORDS) }
}

/// An operand near another, or one that a frame may take: a line, a place, a table and a count.
fn operand(random: &mut Random, old: u32, lines: usize) -> u32 {
    match random.below(6) {
        0 => old.wrapping_add(1),
        1 => old.wrapping_sub(1),
        2 => random.below(lines + 2) as u32,
        3 => (random.below(lines + 2) as u32) << 8 | random.below(ROW + 2) as u32,
        4 => random.below(4) as u32,
        _ => word(random),
    }
}

fn edit_frames(random: &mut Random, frames: &mut Vec<Frame>) {
    let lines = frames.len();
    let k = random.below(lines);
    let other = random.below(lines);
    match random.below(8) {
        0 => frames[k].code = random.below(usize::from(NONE) + 3) as u8,
        1 => frames[k].code = random.pick(&[CALL, ENTRY, frames[other].code]),
        2 | 3 => frames[k].operand = operand(random, frames[k].operand, lines),
        4 => frames.swap(k, other),
        5 => frames.insert(k, frames[other]),
        6 => frames.truncate(k),
        _ => {
            frames.remove(k);
        }
    }
}

/// A byte of the text is another one, or it ends in the midst of a line.
fn edit_text(random: &mut Random, text: &mut Vec<u8>) {
    let k = random.below(text.len());
    if random.once_in(3) {
        text.truncate(k);
        return;
    }
    text[k] = random.pick(&[b'0', b'9', b'a', b'f', b'g', b'A', b'/', b':', b'`', b'\n', b'\r', b' ', 0, 255]);
}

fn noise(random: &mut Random) -> Vec<Frame> {
    (0..random.below(40)).map(|_| Frame { code: random.below(usize::from(NONE) + 1) as u8, operand: operand(random, 0, 40) }).collect()
}

/// A text of frames: one that was written, edited, or any frames.
pub fn damaged(random: &mut Random, text: &[u8]) -> Vec<u8> {
    let mut made = frames::frames(text).expect("it was written");
    if made.is_empty() || random.once_in(8) {
        made = noise(random);
    }
    for _ in 0..random.below(4) {
        if !made.is_empty() {
            edit_frames(random, &mut made);
        }
    }
    let mut text = frames::text(&made);
    if text.len() >= LINE_BYTES && random.once_in(8) {
        edit_text(random, &mut text);
    }
    text
}

/// One place of the record is near what it was, small or huge.
pub fn damage_record(random: &mut Random, r: &mut Record) {
    let place = |old: usize, random: &mut Random| match random.below(5) {
        0 => old.wrapping_add(1),
        1 => old.wrapping_sub(1),
        2 => random.below(101),
        3 => 0,
        _ => random.pick(&[64, 137824, 137825, 1 << 32, usize::MAX]),
    };
    match random.below(9) {
        0 => r.line = place(r.line, random),
        1 => r.height = place(r.height, random),
        2 => r.calls = place(r.calls, random),
        3 => r.words = place(r.words, random),
        4 => r.printed = place(r.printed, random),
        5 => r.tape = place(r.tape, random),
        6 => r.marks = place(r.marks, random),
        7 => r.frames = place(r.frames as usize, random) as u64,
        _ => r.unspent = place(r.unspent as usize, random) as u64,
    }
}

/// An entry of the stack strip: a word, or more than one holds.
fn entry(random: &mut Random) -> u64 {
    match random.below(4) {
        0 => random.pick(&[1 << 32, u64::MAX]),
        _ => u64::from(word(random)),
    }
}

/// Some entry of a strip is another one, mostly where the record says that it is used.
pub fn damage_strips(random: &mut Random, r: &Record, strips: &mut Strips) {
    match random.below(5) {
        0 => strips.stack[CALLS_ENTRIES + random.below(r.height + 2)] = entry(random),
        1 => strips.stack[random.below(34 * (r.calls + 1))] = entry(random),
        2 if !strips.heap.is_empty() => {
            let place = random.below(strips.heap.len().min(r.words + 2));
            strips.heap[place] = word(random) as i32;
        }
        3 if !strips.registers.is_empty() => {
            let register = random.below(strips.registers.len().min(4));
            strips.registers[register] = random.below(256) as u8;
        }
        _ => {
            let place = random.below(strips.stack.len());
            strips.stack[place] = entry(random);
        }
    }
}
