//! The library's runs of frames, in the terms of the independent implementation.

use crate::frame_machine::{FrameLimits, FrameReport, Record, Strips};
use crate::refusal::{refuse, Refusal};
use lesson_engine::strips::{continue_frames, run_frames, LentToFrames};
use lesson_engine::{sys, Cause, Kind};

pub fn given(r: Record) -> sys::FrameRecord {
    sys::FrameRecord {
        line: r.line,
        height: r.height,
        calls: r.calls,
        words: r.words,
        printed: r.printed,
        tape: r.tape,
        marks: r.marks,
        frames: r.frames,
        unspent: r.unspent,
    }
}

fn taken(r: sys::FrameRecord) -> Record {
    Record {
        line: r.line,
        height: r.height,
        calls: r.calls,
        words: r.words,
        printed: r.printed,
        tape: r.tape,
        marks: r.marks,
        frames: r.frames,
        unspent: r.unspent,
    }
}

/// A part of a run; the first takes no record.
pub fn run(text: &[u8], record: Option<Record>, limits: FrameLimits, lent: LentToFrames) -> sys::FramesAnswer {
    let limits = sys::FrameLimits { budget: limits.budget, calls: limits.calls, price: limits.price };
    match record {
        None => run_frames(text, limits, lent),
        Some(r) => continue_frames(text, given(r), limits, lent),
    }
}

/// How a part ends that is lent these strips, or why it is refused.
pub fn report(text: &[u8], record: Option<Record>, limits: FrameLimits, strips: &mut Strips, tape: &[u8]) -> Result<FrameReport, Refusal> {
    let Strips { heap, output, registers, stack } = strips;
    let a = run(text, record, limits, LentToFrames { heap, output, registers, tape, stack });
    let at = a.position as usize;
    match Kind::of(a.number).map(Kind::cause) {
        None | Some(Cause::Fault | Cause::Limit) => {
            Ok(FrameReport { number: a.number, at, frames: a.frames, words: a.words, printed: a.printed, record: taken(a.pause) })
        }
        Some(_) => refuse(a.number, at),
    }
}
