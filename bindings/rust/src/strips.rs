//! The operations over strips of any length that the caller lends: Rust's slices are just what the header asks for.

use crate::sys::{self, CheckAnswer, FrameLimits, FrameRecord, FramesAnswer, Limits, ReadAnswer, RunAnswer, WriteAnswer};

/// Read, over a table that is lent.
pub fn read(source: &[u8], table: &mut [u32]) -> ReadAnswer {
    // A slice is readable, aligned and never null; a mutable one overlaps no other.
    unsafe { sys::engine_read(source.as_ptr(), source.len(), table.as_mut_ptr(), table.len()) }
}

/// Check, over a table that is lent.
pub fn check(source: &[u8], table: &mut [u32]) -> CheckAnswer {
    unsafe { sys::engine_check(source.as_ptr(), source.len(), table.as_mut_ptr(), table.len()) }
}

/// Menu, over a table and a strip that are lent.
pub fn menu(source: &[u8], table: &mut [u32], strip: &mut [u32]) -> CheckAnswer {
    unsafe { sys::engine_menu(source.as_ptr(), source.len(), table.as_mut_ptr(), table.len(), strip.as_mut_ptr(), strip.len()) }
}

/// What a run is lent beside the lesson and the table.
pub struct Lent<'a> {
    pub heap: &'a mut [i32],
    pub output: &'a mut [i32],
    pub registers: &'a mut [u8],
    pub tape: &'a [u8],
}

/// Run, over strips that are lent.
pub fn run(source: &[u8], table: &mut [u32], limits: Limits, lent: Lent) -> RunAnswer {
    unsafe {
        sys::engine_run(
            source.as_ptr(),
            source.len(),
            table.as_mut_ptr(),
            table.len(),
            limits,
            lent.heap.as_mut_ptr(),
            lent.heap.len(),
            lent.output.as_mut_ptr(),
            lent.output.len(),
            lent.registers.as_mut_ptr(),
            lent.registers.len(),
            lent.tape.as_ptr(),
            lent.tape.len(),
        )
    }
}

/// Join, over a table and a strip that are lent.
pub fn join(source: &[u8], table: &mut [u32], library: &[u8], strip: &mut [u8]) -> WriteAnswer {
    unsafe {
        sys::engine_join(
            source.as_ptr(),
            source.len(),
            table.as_mut_ptr(),
            table.len(),
            library.as_ptr(),
            library.len(),
            strip.as_mut_ptr(),
            strip.len(),
        )
    }
}

/// Print, over a table and a strip that are lent.
pub fn print(source: &[u8], table: &mut [u32], strip: &mut [u8]) -> WriteAnswer {
    unsafe { sys::engine_print(source.as_ptr(), source.len(), table.as_mut_ptr(), table.len(), strip.as_mut_ptr(), strip.len()) }
}

/// Encode, over a table and a strip that are lent.
pub fn encode(source: &[u8], table: &mut [u32], frames: &mut [u8]) -> WriteAnswer {
    unsafe { sys::engine_encode(source.as_ptr(), source.len(), table.as_mut_ptr(), table.len(), frames.as_mut_ptr(), frames.len()) }
}

/// What a run of frames is lent beside the frames.
pub struct LentToFrames<'a> {
    pub heap: &'a mut [i32],
    pub output: &'a mut [i32],
    pub registers: &'a mut [u8],
    pub tape: &'a [u8],
    pub stack: &'a mut [u64],
}

/// The first part of a run of frames, over strips that are lent.
pub fn run_frames(frames: &[u8], limits: FrameLimits, lent: LentToFrames) -> FramesAnswer {
    unsafe {
        sys::engine_run_frames(
            frames.as_ptr(),
            frames.len(),
            limits,
            lent.heap.as_mut_ptr(),
            lent.heap.len(),
            lent.output.as_mut_ptr(),
            lent.output.len(),
            lent.registers.as_mut_ptr(),
            lent.registers.len(),
            lent.tape.as_ptr(),
            lent.tape.len(),
            lent.stack.as_mut_ptr(),
            lent.stack.len(),
        )
    }
}

/// A further part, over strips as the last one left them.
pub fn continue_frames(frames: &[u8], record: FrameRecord, limits: FrameLimits, lent: LentToFrames) -> FramesAnswer {
    unsafe {
        sys::engine_continue_frames(
            frames.as_ptr(),
            frames.len(),
            record,
            limits,
            lent.heap.as_mut_ptr(),
            lent.heap.len(),
            lent.output.as_mut_ptr(),
            lent.output.len(),
            lent.registers.as_mut_ptr(),
            lent.registers.len(),
            lent.tape.as_ptr(),
            lent.tape.len(),
            lent.stack.as_mut_ptr(),
            lent.stack.len(),
        )
    }
}
