//! Frames, docs/FRAMES.md: the codes, and lines of text to frames and back.

use crate::refusal::{refuse, Refusal};
use std::fmt::Write;

pub const MARK: u8 = 0x00;
pub const PUSH: u8 = 0x01;
pub const LOAD: u8 = 0x02;
pub const SAVE: u8 = 0x03;
pub const SELF: u8 = 0x04;
pub const NEGATE: u8 = 0x05;
pub const RETURN: u8 = 0x06;
pub const HALT: u8 = 0x07;
pub const OPERATE: u8 = 0x08;
pub const JUMP: u8 = 0x09;
pub const UNLESS: u8 = 0x0a;
pub const KEEP: u8 = 0x0b;
pub const FETCH: u8 = 0x0c;
pub const MEASURE: u8 = 0x0d;
pub const MAKE_ARRAY: u8 = 0x0e;
pub const PRINT: u8 = 0x0f;
pub const STORE_ELEMENT: u8 = 0x10;
pub const MAKE_OBJECT: u8 = 0x11;
pub const CALL: u8 = 0x12;
pub const GET: u8 = 0x13;
pub const PUT: u8 = 0x14;
pub const SCALE: u8 = 0x15;
pub const ENTRY: u8 = 0x16;
pub const NONE: u8 = 0x17;

/// The operands of `OPERATE`.
pub const LESS: u32 = 0;
pub const ADD: u32 = 1;
pub const SUBTRACT: u32 = 2;
pub const MULTIPLY: u32 = 3;

/// The places of a row; from here on a place is a field.
pub const ROW: usize = 32;
/// An operand of `MAKE_OBJECT` is a class above so many bits, and a number of fields.
pub const FIELDS_BITS: u32 = 16;
/// An operand of `CALL` is the first line of a table above so many bits, and a number of arguments.
pub const COUNT_BITS: u32 = 8;

pub const LINE_BYTES: usize = 11;
const DIGITS: usize = 10;

#[derive(Clone, Copy, Debug, PartialEq, Eq)]
pub struct Frame {
    pub code: u8,
    pub operand: u32,
}

fn digit(byte: u8) -> Option<u64> {
    match byte {
        b'0'..=b'9' => Some(u64::from(byte - b'0')),
        b'a'..=b'f' => Some(u64::from(byte - b'a') + 10),
        _ => None,
    }
}

fn frame(line: &[u8]) -> Option<Frame> {
    if line.len() != LINE_BYTES || line[DIGITS] != b'\n' {
        return None;
    }
    let number = line[..DIGITS].iter().try_fold(0, |high, &byte| Some(high * 16 + digit(byte)?))?;
    Some(Frame { code: (number >> 32) as u8, operand: number as u32 })
}

/// The frames of a text, or 69.
pub fn frames(text: &[u8]) -> Result<Vec<Frame>, Refusal> {
    text.chunks(LINE_BYTES).enumerate().map(|(k, line)| frame(line).map_or(refuse(69, LINE_BYTES * k), Ok)).collect()
}

pub fn text(frames: &[Frame]) -> Vec<u8> {
    let mut text = String::new();
    frames.iter().for_each(|f| writeln!(text, "{:02x}{:08x}", f.code, f.operand).expect("a string takes all"));
    text.into_bytes()
}
