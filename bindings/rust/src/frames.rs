//! Runs of frames, whole or in parts.

use crate::paused::Paused;
use crate::strips::{self, LentToFrames};
use crate::sys::{self, FrameRecord, FramesAnswer};
use crate::{ending, Kind, Refusal};

/// The limits of a run of frames. The default are those of `bayrun`; a lesson takes at most four frames a step, and one.
#[derive(Clone, Copy, Debug, PartialEq, Eq)]
pub struct FrameLimits {
    /// What the frames of a part may cost: a call the price, every other frame 1.
    pub budget: u32,
    /// 1 or 10.
    pub price: u32,
    /// Open calls, 1 to 64.
    pub calls: usize,
    /// Words of objects and arrays, at most 16,384.
    pub heap: usize,
    /// Printed numbers.
    pub output: usize,
}

impl Default for FrameLimits {
    fn default() -> FrameLimits {
        FrameLimits { budget: 400_001, price: 1, calls: 64, heap: 4096, output: 256 }
    }
}

/// How a run of frames went, over all its parts.
#[derive(Clone, Debug, PartialEq, Eq)]
pub struct FrameRun {
    /// The fault or limit that ended it; none where it came to its end.
    pub end: Option<Refusal>,
    /// How many frames were carried out.
    pub frames: u64,
    /// Heap words.
    pub words: usize,
    pub printed: Vec<i32>,
    /// What the registers behind the cable hold at the end.
    pub registers: [u8; sys::REGISTERS],
    /// Where it goes on: there where the budget was spent.
    pub paused: Option<Paused>,
}

/// All that the frames and unspent budget of a run and its next budget may be together.
const BUDGETS_MOST: u64 = u32::MAX as u64;

/// A run of frames between two parts.
#[derive(Clone, PartialEq, Eq)]
pub(crate) struct State {
    pub calls: usize,
    /// How many numbers may be printed. The strip is as long as the parts so far asked for.
    pub output_most: usize,
    /// Of the last part; none before the first.
    pub record: Option<FrameRecord>,
    pub heap: Vec<i32>,
    pub output: Vec<i32>,
    pub registers: [u8; sys::REGISTERS],
    pub stack: Vec<u64>,
}

impl State {
    fn new(limits: &FrameLimits) -> State {
        State {
            calls: limits.calls,
            output_most: limits.output,
            record: None,
            // One word more than is allowed is refused as any longer heap is.
            heap: vec![0; limits.heap.min(sys::HEAP_MOST + 1)],
            output: Vec::new(),
            registers: [0; sys::REGISTERS],
            stack: vec![0; sys::STACK_ENTRIES],
        }
    }

    /// How many numbers were printed.
    pub fn printed(&self) -> usize {
        self.record.map_or(0, |r| r.printed)
    }

    /// What the budget of the next part can be.
    fn budget_most(&self) -> u32 {
        let spent = self.record.map_or(0, |r| r.frames.saturating_add(r.unspent));
        BUDGETS_MOST.saturating_sub(spent) as u32
    }

    /// Makes the output strip as long as the next part asks for: it prints no more numbers than it can pay frames.
    fn make_room(&mut self, budget: u32) {
        let unspent = self.record.map_or(0, |r| r.unspent as usize);
        let room = self.printed().saturating_add(unspent).saturating_add(budget as usize);
        // New memory, of which only what is printed to is ever touched.
        let mut output = vec![0; self.output_most.min(room)];
        output[..self.printed()].copy_from_slice(&self.output[..self.printed()]);
        self.output = output;
    }

    /// Carries a part out.
    pub fn part(&mut self, frames: &[u8], budget: u32, price: u32, tape: &[u8]) -> FramesAnswer {
        self.make_room(budget);
        let limits = sys::FrameLimits { budget, calls: self.calls, price };
        let lent = LentToFrames {
            heap: &mut self.heap,
            output: &mut self.output,
            registers: &mut self.registers,
            tape,
            stack: &mut self.stack,
        };
        let a = match self.record {
            None => strips::run_frames(frames, limits, lent),
            Some(record) => strips::continue_frames(frames, record, limits, lent),
        };
        self.record = Some(a.pause);
        a
    }
}

/// How a part ended; an `Err` where it never began.
fn part_ending(a: &FramesAnswer) -> Result<Option<Refusal>, Refusal> {
    // A position has 64 bits, as usize has where the library is.
    ending(a.number, a.position as usize)
}

fn is_paused(end: &Option<Refusal>) -> bool {
    end.map_or(false, |r| r.kind == Kind::BudgetSpent)
}

/// What is known after a part.
pub(crate) fn run_of(state: State, a: &FramesAnswer, frames: &[u8], tape: &[u8]) -> Result<FrameRun, Refusal> {
    let end = part_ending(a)?;
    let printed = state.output[..a.printed].to_vec();
    let registers = state.registers;
    let paused = if is_paused(&end) { Some(Paused::new(state, frames, tape)) } else { None };
    Ok(FrameRun { end, frames: a.frames, words: a.words, printed, registers, paused })
}

/// Runs frames, with samples of a tape. What is no text of frames, and limits out of their range, are an `Err`; a run that began is an `Ok`,
/// however it ended.
///
/// ```
/// use lesson_engine::{frames, run_frames};
/// let frames = frames(b"class M{public static void main(String[] a){System.out.println(1+2);}}")?;
/// let run = run_frames(&frames, &Default::default(), &[])?;
/// assert_eq!((run.end, run.frames, run.printed), (None, 9, vec![3]));
/// # Ok::<(), lesson_engine::Refusal>(())
/// ```
pub fn run_frames(frames: &[u8], limits: &FrameLimits, tape: &[u8]) -> Result<FrameRun, Refusal> {
    let mut state = State::new(limits);
    let a = state.part(frames, limits.budget, limits.price, tape);
    run_of(state, &a, frames, tape)
}

/// How a part of a run went.
#[derive(Clone, Debug, PartialEq, Eq)]
pub struct Part {
    /// As in [`FrameRun`]; after every part but the last one it is [`Kind::BudgetSpent`].
    pub end: Option<Refusal>,
    /// How many frames were carried out, in all parts so far.
    pub frames: u64,
    /// The numbers that this part printed.
    pub printed: Vec<i32>,
}

/// A run of frames in parts of a budget each: an iterator whose last part ends otherwise than in [`Kind::BudgetSpent`], or spends the last
/// of 4294967295. A refusal is its last item too. Between two parts the caller can do something else, or end the run.
pub struct Parts<'a> {
    frames: &'a [u8],
    tape: &'a [u8],
    budget: u32,
    price: u32,
    state: State,
    is_over: bool,
}

/// Runs frames in parts, each with the budget of the limits. They end as one run with all these budgets does.
///
/// ```
/// use lesson_engine::{frames, parts, FrameLimits, Kind};
/// let endless = frames(b"class M{public static void main(String[] a){while(true){System.out.println(7);}}}")?;
/// let mut printed = Vec::new();
/// for part in parts(&endless, &FrameLimits { budget: 100, ..FrameLimits::default() }, &[]) {
///     let part = part?;
///     assert_eq!(part.end.map(|r| r.kind), Some(Kind::BudgetSpent));
///     printed.extend(part.printed);
///     if printed.len() > 20 {
///         break; // A program looks at a flag here.
///     }
/// }
/// assert_eq!(printed, [7; 22]);
/// # Ok::<(), lesson_engine::Refusal>(())
/// ```
pub fn parts<'a>(frames: &'a [u8], limits: &FrameLimits, tape: &'a [u8]) -> Parts<'a> {
    Parts { frames, tape, budget: limits.budget, price: limits.price, state: State::new(limits), is_over: false }
}

impl<'a> Parts<'a> {
    pub(crate) fn from_state(state: State, frames: &'a [u8], budget: u32, price: u32, tape: &'a [u8]) -> Parts<'a> {
        Parts { frames, tape, budget, price, state, is_over: false }
    }

    /// Where the run goes on; none before its first part, and where it came to an end.
    ///
    /// ```
    /// use lesson_engine::{frames, parts, FrameLimits};
    /// let frames = frames(b"class M{public static void main(String[] a){System.out.println(1+2);}}")?;
    /// let mut run = parts(&frames, &FrameLimits { budget: 5, ..FrameLimits::default() }, &[]);
    /// run.next();
    /// let paused = run.pause().expect("the run is not over");
    /// assert_eq!(paused.resume(&frames, 4, 1, &[])?.printed, [3]);
    /// # Ok::<(), Box<dyn std::error::Error>>(())
    /// ```
    pub fn pause(self) -> Option<Paused> {
        let is_begun = self.state.record.is_some();
        let (is_over, frames, tape) = (self.is_over, self.frames, self.tape);
        Some(self.state).filter(|_| is_begun && !is_over).map(|state| Paused::new(state, frames, tape))
    }
}

impl Iterator for Parts<'_> {
    type Item = Result<Part, Refusal>;

    fn next(&mut self) -> Option<Result<Part, Refusal>> {
        let budget = self.budget.min(self.state.budget_most());
        // A part that costs nothing would be followed by others without end.
        if self.is_over || (budget == 0 && self.state.record.is_some()) {
            return None;
        }
        let before = self.state.printed();
        let a = self.state.part(self.frames, budget, self.price, self.tape);
        let end = part_ending(&a);
        self.is_over = !end.as_ref().map_or(false, is_paused);
        Some(end.map(|end| Part { end, frames: a.frames, printed: self.state.output[before..a.printed].to_vec() }))
    }
}
