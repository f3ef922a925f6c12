//! What include/engine.h declares, as it stands there: for a caller that lends its own strips. The header says what a caller owes.

// [words/write operations: what words/operations.txt says
/// The version of these declarations; it goes up when one of them or its meaning changes.
pub const VERSION: u32 = 5;
/// The work table has at least so many words.
pub const TABLE_WORDS: usize = 16384;
/// A lesson has at most so many bytes; a longer one is refused, and never read past its end.
pub const SOURCE_MOST: usize = 16384;
/// The heap strip has at most so many words.
pub const HEAP_MOST: usize = 16384;
/// The call limit is 1 to this.
pub const CALLS_MOST: usize = 64;
/// The register strip has exactly so many bytes.
pub const REGISTERS: usize = 16;
/// No lesson has more classes: a strip of so many words is long enough for Menu.
pub const CLASSES_MOST: usize = 2048;
/// No joined text has more bytes: a strip of so many is long enough for Join, and so is one of the lengths of lesson and library and 513
/// more.
pub const JOIN_MOST: usize = 33281;
/// No printed text has more bytes, nor more than the lesson and 2,048: a strip of so many is long enough for Print.
pub const PRINT_MOST: usize = 18432;
/// The frames of no lesson have more bytes: a strip of so many is long enough for Encode.
pub const FRAMES_MOST: usize = 373417;
/// The stack strip of frames has at least so many entries.
pub const STACK_ENTRIES: usize = 140000;
/// A call takes at most so many bytes of stack.
pub const STACK_BYTES: usize = 1048576;

/// The answer of Read; the counts are 0 after a refusal.
#[repr(C)]
#[derive(Clone, Copy, Debug, Default, PartialEq, Eq)]
pub struct ReadAnswer {
    pub number: u32,
    pub position: usize,
    pub tokens: usize,
    /// Statements and expressions.
    pub nodes: usize,
}

/// The answer of Check and of Menu.
#[repr(C)]
#[derive(Clone, Copy, Debug, Default, PartialEq, Eq)]
pub struct CheckAnswer {
    pub number: u32,
    pub position: usize,
    /// Beside main's; 0 after a refusal.
    pub classes: usize,
}

/// The answer of Join, of Print and of Encode.
#[repr(C)]
#[derive(Clone, Copy, Debug, Default, PartialEq, Eq)]
pub struct WriteAnswer {
    pub number: u32,
    pub position: usize,
    /// How many bytes lead the strip; 0 after a refusal.
    pub count: usize,
}

/// The limits of a run. Two more are the lengths of the heap strip and of the output strip.
#[repr(C)]
#[derive(Clone, Copy, Debug, Default, PartialEq, Eq)]
pub struct Limits {
    /// Steps: every statement and every expression that begins takes one.
    pub budget: u32,
    /// How many calls may be open at once, main not counted.
    pub calls: usize,
}

/// The answer of Run. The counts are those of the run up to its end, also where a fault or a limit ended it; they are 0 where the lesson
/// was refused and never ran.
#[repr(C)]
#[derive(Clone, Copy, Debug, Default, PartialEq, Eq)]
pub struct RunAnswer {
    pub number: u32,
    pub position: usize,
    pub steps: usize,
    /// How many classes were visited to find the methods of all calls.
    pub climbs: u64,
    /// Of the heap strip: 1 for each object and array, and 1 for each field and element.
    pub words: usize,
    /// How many numbers lead the output strip.
    pub printed: usize,
}

/// The limits of a part of a run of frames: budgets and prices may differ from part to part. Two more are the lengths of the heap strip and
/// of the output strip.
#[repr(C)]
#[derive(Clone, Copy, Debug, Default, PartialEq, Eq)]
pub struct FrameLimits {
    /// What the frames of this part may cost: a call the price, every other frame 1.
    pub budget: u32,
    /// How many calls may be open at once.
    pub calls: usize,
    /// 1 or 10.
    pub price: u32,
}

/// Where a run of frames is that spent its budget, for its next part; all 0 after every other end.
#[repr(C)]
#[derive(Clone, Copy, Debug, Default, PartialEq, Eq)]
pub struct FrameRecord {
    /// The one that is due, from 0.
    pub line: usize,
    /// How many values lie on the stack strip, from entry 2176 on.
    pub height: usize,
    /// How many calls are open, 34 entries each, from entry 0 of the stack strip on.
    pub calls: usize,
    pub words: usize,
    pub printed: usize,
    /// How many samples were taken.
    pub tape: usize,
    /// Since the last sample was due, 0 to 99.
    pub marks: usize,
    pub frames: u64,
    /// What is left of the budget: less than the frame costs that is due.
    pub unspent: u64,
}

/// The answer of a part of a run of frames. The counts are those of all parts up to here; they are 0 where the frames were refused.
#[repr(C)]
#[derive(Clone, Copy, Debug, Default, PartialEq, Eq)]
pub struct FramesAnswer {
    pub number: u32,
    /// In bytes of the frames. That of 70 may lie past them, and above 4294967295.
    pub position: u64,
    /// How many were carried out.
    pub frames: u64,
    /// Of the heap strip, as in the answer of Run.
    pub words: usize,
    /// How many numbers lead the output strip.
    pub printed: usize,
    pub pause: FrameRecord,
}

extern "C" {
    /// The version that belongs to the library: [`VERSION`] of these declarations.
    pub fn engine_version() -> u32;
    /// Is the lesson in the grammar, and within the bounds? Refuses with 1, 10 to 17, 60 and 65.
    pub fn engine_read(source: *const u8, source_length: usize, table: *mut u32, table_length: usize) -> ReadAnswer;
    /// May the lesson run: are its names and types right too? Refuses as Read does, and with 20 to 34.
    pub fn engine_check(source: *const u8, source_length: usize, table: *mut u32, table_length: usize) -> CheckAnswer;
    /// Where do the names of the classes stand? After success `strip` begins with the position of the name of each class beside main's,
    /// each once, a parent before the classes that extend it and otherwise as they stand in the lesson; its rest is unchanged, and so is
    /// all of it after a refusal. Refuses as Check does, and with 4.
    pub fn engine_menu(
        source: *const u8,
        source_length: usize,
        table: *mut u32,
        table_length: usize,
        strip: *mut u32,
        strip_length: usize,
    ) -> CheckAnswer;
    /// Checks the lesson and runs it. Refuses with 1, 2, 3, 62 and as Check does; then the run ends in 0, in a fault (40 to 42, 63, 64) or
    /// at a limit (50 to 53).
    pub fn engine_run(
        source: *const u8,
        source_length: usize,
        table: *mut u32,
        table_length: usize,
        limits: Limits,
        heap: *mut i32,
        heap_length: usize,
        output: *mut i32,
        output_length: usize,
        registers: *mut u8,
        registers_length: usize,
        tape: *const u8,
        tape_length: usize,
    ) -> RunAnswer;
    /// Puts a library under the lesson. A library is zero or more class declarations, which Read's rules and bounds hold for. After success
    /// `strip` begins with the lesson, a line feed, then each class of the library whose name no class of the lesson has, main's included,
    /// from its `class` to its closing brace, a line feed after each; its rest is unchanged, and so is all of it after a refusal. All other
    /// operations take that text. Refuses as Read does; with 66, whose position counts the bytes of the library; and last with 67.
    pub fn engine_join(
        source: *const u8,
        source_length: usize,
        table: *mut u32,
        table_length: usize,
        library: *const u8,
        library_length: usize,
        strip: *mut u8,
        strip_length: usize,
    ) -> WriteAnswer;
    /// Writes the lesson in the house layout. After success `strip` begins with its tokens, a line feed after each `;`, `{` and `}` and a
    /// space after every other, without comments and with just the parentheses that its tree needs; its rest is unchanged, and so is all of
    /// it after a refusal. A text of at most 16,384 bytes is accepted again, with the same tree. Refuses as Check does, and last with 61.
    pub fn engine_print(
        source: *const u8,
        source_length: usize,
        table: *mut u32,
        table_length: usize,
        strip: *mut u8,
        strip_length: usize,
    ) -> WriteAnswer;
    /// Writes the lesson as frames: stack code for a reader, a frame a line. docs/FRAMES.md has the code table. After success `frames`
    /// begins with them; its rest is unchanged, and so is all of it after a refusal. Refuses as Check does, and last with 68.
    pub fn engine_encode(
        source: *const u8,
        source_length: usize,
        table: *mut u32,
        table_length: usize,
        frames: *mut u8,
        frames_length: usize,
    ) -> WriteAnswer;
    /// Runs frames, those of a lesson or any others, from their first line on. Refuses with 2, 3, 62, 72, 68 and 69, in this order, which
    /// touch nothing; then the run ends in 0, in a fault (40 to 42, 63, 64, 70) or at a limit (50 to 53). The frames of a lesson never end
    /// in 70; where neither they nor Run end in 50 both end in the same number, with the same printed numbers, heap words and registers,
    /// and the frames are at most four times the steps, and one.
    pub fn engine_run_frames(
        frames: *const u8,
        frames_length: usize,
        limits: FrameLimits,
        heap: *mut i32,
        heap_length: usize,
        output: *mut i32,
        output_length: usize,
        registers: *mut u8,
        registers_length: usize,
        tape: *const u8,
        tape_length: usize,
        stack: *mut u64,
        stack_length: usize,
    ) -> FramesAnswer;
    /// Goes on with a run of frames that ended in 50: `from` is the pause of that answer, heap, output, registers and stack strip are as it
    /// left them, and frames, tape and call limit are the same. Parts that are run so, whatever their budgets, end as one run with all of
    /// them does. Refuses as engine_run_frames does, and last with 71, which touches nothing: the record does not fit what is lent
    /// (docs/FRAMES.md), or its frames, its unspent budget and the new one are together above 4294967295. Another record or other strips
    /// are answered too, and may lead to 70.
    pub fn engine_continue_frames(
        frames: *const u8,
        frames_length: usize,
        from: FrameRecord,
        limits: FrameLimits,
        heap: *mut i32,
        heap_length: usize,
        output: *mut i32,
        output_length: usize,
        registers: *mut u8,
        registers_length: usize,
        tape: *const u8,
        tape_length: usize,
        stack: *mut u64,
        stack_length: usize,
    ) -> FramesAnswer;
}
// words/write]
