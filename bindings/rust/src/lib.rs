//! The lesson engine: MiniJava from bytes to printed numbers.
//!
//! A lesson goes in, an answer comes out. The operations are proved; this crate, which lends them what they need, is tested.
//!
//! ```
//! let lesson = b"class M{public static void main(String[] a){System.out.println(1+2);}}";
//! let run = lesson_engine::run(lesson, &Default::default(), &[])?;
//! assert_eq!((run.end, run.printed), (None, vec![3]));
//! # Ok::<(), lesson_engine::Refusal>(())
//! ```
//!
//! A refusal has a kind, which has a number and words, and a position:
//!
//! ```
//! let refusal = lesson_engine::check(b"class M{public static void main(String[] a){x=1;}}").unwrap_err();
//! assert_eq!(refusal.kind, lesson_engine::Kind::NameUnknown);
//! assert_eq!((refusal.kind.number(), refusal.position), (30, 44));
//! assert_eq!(refusal.to_string(), "30 name unknown, at byte 44: No local, parameter or field of this name can be seen here; main sees none at all.");
//! ```
//!
//! A lesson can also be written as [`frames`], stack code for readers, whose runs go on in [`parts`] and can be stored between them ([`Paused`]).
//!
//! A call needs up to [`sys::STACK_BYTES`] of stack beside the caller's own: threads of Rust's standard size have it. Any number of threads may call at once.

mod frames;
mod kind;
mod library;
mod paused;
pub mod strips;
pub mod sys;

pub use frames::{parts, run_frames, FrameLimits, FrameRun, Part, Parts};
pub use kind::{Cause, Kind};
pub use paused::{PauseError, Paused};
use std::error::Error;
use std::fmt;

/// Why a lesson, a library or a text of frames is refused, or how a run ended otherwise than by itself, and where.
#[derive(Clone, Copy, Debug, PartialEq, Eq, Hash)]
pub struct Refusal {
    pub kind: Kind,
    /// In bytes of the lesson, from 0; of [`Kind::LibraryRefused`] and of what [`read_library`] refuses in bytes of the library; of a run of
    /// frames in bytes of the frames, and of [`Kind::FrameFault`] perhaps past them.
    pub position: usize,
}

impl fmt::Display for Refusal {
    fn fmt(&self, f: &mut fmt::Formatter) -> fmt::Result {
        write!(f, "{} {}, at byte {}: {}", self.kind.number(), self.kind.name(), self.position, self.kind.sentence())
    }
}

impl Error for Refusal {}

/// What Read counts.
#[derive(Clone, Copy, Debug, PartialEq, Eq)]
pub struct Size {
    pub tokens: usize,
    /// Statements and expressions.
    pub nodes: usize,
}

/// The limits of a run. The default are those of `bayrun`.
///
/// ```
/// use lesson_engine::{run, Kind, Limits};
/// let endless = b"class M{public static void main(String[] a){while(true){}}}";
/// let run = run(endless, &Limits { budget: 10, ..Limits::default() }, &[])?;
/// assert_eq!(run.end.map(|r| r.kind), Some(Kind::BudgetSpent));
/// assert_eq!(run.steps, 10);
/// # Ok::<(), lesson_engine::Refusal>(())
/// ```
#[derive(Clone, Copy, Debug, PartialEq, Eq)]
pub struct Limits {
    /// Steps.
    pub budget: u32,
    /// Open calls, 1 to 64.
    pub calls: usize,
    /// Words of objects and arrays, at most 16,384.
    pub heap: usize,
    /// Printed numbers.
    pub output: usize,
}

impl Default for Limits {
    fn default() -> Limits {
        Limits { budget: 100_000, calls: 64, heap: 4096, output: 256 }
    }
}

/// How a run went.
#[derive(Clone, Debug, PartialEq, Eq)]
pub struct Run {
    /// The fault or limit that ended it; none where the lesson came to its end.
    pub end: Option<Refusal>,
    pub steps: usize,
    /// How many classes were visited to find the methods of all calls.
    pub climbs: u64,
    /// Heap words.
    pub words: usize,
    pub printed: Vec<i32>,
    /// What the registers behind the cable hold at the end.
    pub registers: [u8; sys::REGISTERS],
}

/// The refusal of an answer that is not 0.
fn refusal(number: u32, position: usize) -> Option<Refusal> {
    if number == 0 {
        return None;
    }
    let kind = Kind::of(number).unwrap_or_else(|| panic!("the library answers {}, which is no number of this crate's version", number));
    Some(Refusal { kind, position })
}

/// How a run ended; an `Err` where it never began.
fn ending(number: u32, position: usize) -> Result<Option<Refusal>, Refusal> {
    match refusal(number, position) {
        Some(r) if !matches!(r.kind.cause(), Cause::Fault | Cause::Limit) => Err(r),
        end => Ok(end),
    }
}

/// A work table.
fn table() -> Vec<u32> {
    vec![0; sys::TABLE_WORDS]
}

/// Is the lesson in the grammar, and within the bounds?
///
/// ```
/// let size = lesson_engine::read(b"class M{public static void main(String[] a){{}}}").unwrap();
/// assert_eq!((size.tokens, size.nodes), (18, 1));
/// assert_eq!(lesson_engine::read(b"").unwrap_err().kind, lesson_engine::Kind::NotInGrammar);
/// ```
pub fn read(lesson: &[u8]) -> Result<Size, Refusal> {
    let a = strips::read(lesson, &mut table());
    refusal(a.number, a.position).map_or(Ok(Size { tokens: a.tokens, nodes: a.nodes }), Err)
}

/// May the lesson run? Answers how many classes it has beside main's.
///
/// ```
/// assert_eq!(lesson_engine::check(b"class M{public static void main(String[] a){{}}} class A{}"), Ok(1));
/// ```
pub fn check(lesson: &[u8]) -> Result<usize, Refusal> {
    let a = strips::check(lesson, &mut table());
    refusal(a.number, a.position).map_or(Ok(a.classes), Err)
}

/// Where the names of the classes beside main's stand, a parent before the classes that extend it.
///
/// ```
/// let lesson = b"class M{public static void main(String[] a){{}}} class B extends A{} class A{}";
/// assert_eq!(lesson_engine::menu(lesson), Ok(vec![75, 55]));
/// ```
pub fn menu(lesson: &[u8]) -> Result<Vec<usize>, Refusal> {
    let mut strip = vec![0; sys::CLASSES_MOST];
    let a = strips::menu(lesson, &mut table(), &mut strip);
    refusal(a.number, a.position).map_or(Ok(strip[..a.classes].iter().map(|&p| p as usize).collect()), Err)
}

/// Checks the lesson and runs it, with samples of a tape. What Check refuses, and limits out of their range, are an `Err`; a run that began is an `Ok`, however it ended.
///
/// ```
/// let lesson = b"class M{public static void main(String[] a){while(Port.get(2)<7){}}}";
/// let run = lesson_engine::run(lesson, &Default::default(), &[7])?;
/// assert_eq!((run.end, run.registers[2]), (None, 7));
/// # Ok::<(), lesson_engine::Refusal>(())
/// ```
pub fn run(lesson: &[u8], limits: &Limits, tape: &[u8]) -> Result<Run, Refusal> {
    // One word more than is allowed is refused as any longer heap is; no run prints more numbers than it has steps.
    let mut heap = vec![0; limits.heap.min(sys::HEAP_MOST + 1)];
    let mut output = vec![0; limits.output.min(limits.budget as usize)];
    let mut registers = [0; sys::REGISTERS];
    let bounds = sys::Limits { budget: limits.budget, calls: limits.calls };
    let lent = strips::Lent { heap: &mut heap, output: &mut output, registers: &mut registers, tape };
    let a = strips::run(lesson, &mut table(), bounds, lent);
    let end = ending(a.number, a.position)?;
    output.truncate(a.printed);
    Ok(Run { end, steps: a.steps, climbs: a.climbs, words: a.words, printed: output, registers })
}

/// What a strip begins with after an answer, or the refusal.
fn written(a: sys::WriteAnswer, mut strip: Vec<u8>) -> Result<Vec<u8>, Refusal> {
    strip.truncate(a.count);
    refusal(a.number, a.position).map_or(Ok(strip), Err)
}

/// Puts a library, which is zero or more class declarations, under a lesson: the lesson, a line feed, and each class of the library whose name no class of the lesson has.
/// All other functions take that text. What is wrong with a library that is refused [`read_library`] says.
///
/// ```
/// let lesson = b"class M{public static void main(String[] a){System.out.println(new B().b());}} class A{}";
/// let library = b"class A{int a;} class B{public int b(){return 7;}}";
/// let joined = lesson_engine::join(lesson, library)?;
/// assert_eq!(joined, [&lesson[..], b"\nclass B{public int b(){return 7;}}\n"].concat());
/// assert_eq!(lesson_engine::run(&joined, &Default::default(), &[])?.printed, [7]);
/// # Ok::<(), lesson_engine::Refusal>(())
/// ```
pub fn join(lesson: &[u8], library: &[u8]) -> Result<Vec<u8>, Refusal> {
    let mut strip = vec![0; sys::JOIN_MOST];
    let a = strips::join(lesson, &mut table(), library, &mut strip);
    written(a, strip)
}

/// Is a library in the grammar, and within the bounds? Refuses with the number that Read gives a lesson for the same fault.
///
/// ```
/// use lesson_engine::{join, read_library, Kind};
/// let library = b"class A{} main";
/// let lesson = b"class M{public static void main(String[] a){{}}}";
/// let (joined, fault) = (join(lesson, library).unwrap_err(), read_library(library).unwrap_err());
/// assert_eq!((joined.kind, joined.position), (Kind::LibraryRefused, 10));
/// assert_eq!((fault.kind, fault.position), (Kind::NotInGrammar, 10));
/// ```
pub fn read_library(library: &[u8]) -> Result<(), Refusal> {
    library::read(library)
}

/// Writes a lesson in the house layout: a line feed after each `;`, `{` and `}`, a space after every other token, no comments, and just the parentheses that its tree needs.
/// A text of at most [`sys::SOURCE_MOST`] bytes is accepted again, and tidy already.
///
/// ```
/// let lesson = b"class M{public static void main(String[] a){/* three */System.out.println((1)+2);}}";
/// let text = lesson_engine::tidy(lesson)?;
/// assert_eq!(text, b"class M {\npublic static void main ( String [ ] a ) {\nSystem . out . println ( 1 + 2 ) ;\n}\n}\n");
/// assert_eq!(lesson_engine::tidy(&text)?, text);
/// # Ok::<(), lesson_engine::Refusal>(())
/// ```
pub fn tidy(lesson: &[u8]) -> Result<Vec<u8>, Refusal> {
    let mut strip = vec![0; sys::PRINT_MOST];
    let a = strips::print(lesson, &mut table(), &mut strip);
    written(a, strip)
}

/// Writes a lesson as frames: stack code for a reader, a frame a line (docs/FRAMES.md). [`run_frames`] and [`parts`] run them.
///
/// ```
/// let frames = lesson_engine::frames(b"class M{public static void main(String[] a){System.out.println(7);}}")?;
/// assert_eq!(frames, b"000000002c\n000000003f\n0100000007\n0f0000002c\n0700000000\n");
/// # Ok::<(), lesson_engine::Refusal>(())
/// ```
pub fn frames(lesson: &[u8]) -> Result<Vec<u8>, Refusal> {
    let mut strip = vec![0; sys::FRAMES_MOST];
    let a = strips::encode(lesson, &mut table(), &mut strip);
    written(a, strip)
}

#[cfg(test)]
mod tests {
    use super::*;

    #[test]
    fn the_library_belongs_to_these_declarations() {
        assert_eq!(unsafe { sys::engine_version() }, sys::VERSION);
    }

    #[test]
    fn every_number_has_one_kind() {
        assert!(Kind::ALL.iter().all(|&kind| Kind::of(kind.number()) == Some(kind)));
        assert_eq!(Kind::of(0), None);
    }
}
