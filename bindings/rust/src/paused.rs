//! A run of frames that spent its budget: what its next part takes, and the bytes as which it can be stored.
//!
//! All numbers are stored lowest byte first. These bytes are:
//!
//! 1. `paused 1`, which is the name of the form and its version.
//! 2. Numbers of 64 bits: call limit, words of the heap strip, numbers that may be printed; the hashes of the frames and of the tape; the
//!    record's nine numbers, in its order; how many heap words and how many stack entries follow.
//! 3. The 16 registers; the printed numbers and the heap words, 32 bits each; the stack entries, 64 bits each. What the strips hold behind
//!    those is 0.
//! 4. The hash of all these bytes, in 64 bits.

use crate::frames::{run_of, FrameRun, Parts, State};
use crate::sys::{self, FrameRecord};
use crate::Refusal;
use std::error::Error;
use std::fmt;

/// A run of frames that spent its budget, between two parts. It has its limits, and knows by their hashes the frames and the tape that it
/// belongs to.
///
/// ```
/// use lesson_engine::{frames, run_frames, FrameLimits, PauseError, Paused};
/// let text = frames(b"class M{public static void main(String[] a){System.out.println(1+2);}}")?;
/// let run = run_frames(&text, &FrameLimits { budget: 5, ..FrameLimits::default() }, &[])?;
/// let stored = run.paused.expect("the budget was spent").to_bytes();
///
/// let paused = Paused::from_bytes(&stored)?;
/// let run = paused.resume(&text, 4, 1, &[])?;
/// assert_eq!((run.end, run.frames, run.printed), (None, 9, vec![3]));
///
/// let other = frames(b"class M{public static void main(String[] a){{}}}")?;
/// assert_eq!(paused.resume(&other, 4, 1, &[]), Err(PauseError::OtherFrames));
/// # Ok::<(), Box<dyn std::error::Error>>(())
/// ```
#[derive(Clone, PartialEq, Eq)]
pub struct Paused {
    state: State,
    frames: u64,
    tape: u64,
}

/// Its strips are too long to be read.
impl fmt::Debug for Paused {
    fn fmt(&self, f: &mut fmt::Formatter) -> fmt::Result {
        f.debug_struct("Paused").field("record", &self.record()).field("printed", &self.printed()).finish()
    }
}

/// Why a pause is not taken up.
#[derive(Clone, Copy, Debug, PartialEq, Eq)]
pub enum PauseError {
    /// These bytes are no stored pause, or were changed.
    Damaged,
    /// It was stored in another version of the form.
    OtherVersion,
    /// It is a pause of other frames.
    OtherFrames,
    /// It is a pause of a run with another tape.
    OtherTape,
    /// The engine refuses the next part.
    Refused(Refusal),
}

impl fmt::Display for PauseError {
    fn fmt(&self, f: &mut fmt::Formatter) -> fmt::Result {
        match self {
            PauseError::Damaged => write!(f, "is no stored pause, or was changed"),
            PauseError::OtherVersion => write!(f, "is a pause that another version stored"),
            PauseError::OtherFrames => write!(f, "is a pause of other frames"),
            PauseError::OtherTape => write!(f, "is a pause of a run with another tape"),
            PauseError::Refused(refusal) => write!(f, "is refused: {}", refusal),
        }
    }
}

impl Error for PauseError {}

const NAME: &[u8] = b"paused ";
const VERSION: u8 = b'1';
const HASH_BYTES: usize = 8;

/// FNV-1a. It tells what was mistaken for something else, and protects against no one who means to deceive.
fn hash(bytes: &[u8]) -> u64 {
    bytes.iter().fold(0xcbf2_9ce4_8422_2325, |h, &b| (h ^ u64::from(b)).wrapping_mul(0x0000_0100_0000_01b3))
}

fn without_last_zeros<T: Copy + Default + PartialEq>(strip: &[T]) -> &[T] {
    &strip[..strip.iter().rposition(|&x| x != T::default()).map_or(0, |k| k + 1)]
}

fn numbers_of(r: &FrameRecord) -> [u64; 9] {
    [r.line as u64, r.height as u64, r.calls as u64, r.words as u64, r.printed as u64, r.tape as u64, r.marks as u64, r.frames, r.unspent]
}

/// Bytes that are read from their beginning on; none where they are too few.
struct Rest<'a>(&'a [u8]);

impl<'a> Rest<'a> {
    fn bytes(&mut self, count: usize) -> Option<&'a [u8]> {
        if self.0.len() < count {
            return None;
        }
        let (first, rest) = self.0.split_at(count);
        self.0 = rest;
        Some(first)
    }

    fn long(&mut self) -> Option<u64> {
        Some(u64::from_le_bytes(self.bytes(8)?.try_into().ok()?))
    }

    fn size(&mut self) -> Option<usize> {
        self.long()?.try_into().ok()
    }

    fn record(&mut self) -> Option<FrameRecord> {
        Some(FrameRecord {
            line: self.size()?,
            height: self.size()?,
            calls: self.size()?,
            words: self.size()?,
            printed: self.size()?,
            tape: self.size()?,
            marks: self.size()?,
            frames: self.long()?,
            unspent: self.long()?,
        })
    }

    /// So many numbers, and then zeros up to a length.
    fn numbers(&mut self, count: usize, length: usize) -> Option<Vec<i32>> {
        let found = self.bytes(count.checked_mul(4).filter(|_| count <= length)?)?;
        let mut made: Vec<i32> = found.chunks(4).map(|b| i32::from_le_bytes(b.try_into().expect("four bytes"))).collect();
        made.resize(length, 0);
        Some(made)
    }

    fn entries(&mut self, count: usize, length: usize) -> Option<Vec<u64>> {
        let found = self.bytes(count.checked_mul(8).filter(|_| count <= length)?)?;
        let mut made: Vec<u64> = found.chunks(8).map(|b| u64::from_le_bytes(b.try_into().expect("eight bytes"))).collect();
        made.resize(length, 0);
        Some(made)
    }

    /// What stands behind the name and before the last hash.
    fn paused(&mut self) -> Option<Paused> {
        let (calls, heap_length, output_most) = (self.size()?, self.size().filter(|&n| n <= sys::HEAP_MOST)?, self.size()?);
        let (frames, tape) = (self.long()?, self.long()?);
        let record = self.record().filter(|r| r.printed <= output_most)?;
        let (heap_count, stack_count) = (self.size()?, self.size()?);
        let registers = self.bytes(sys::REGISTERS)?.try_into().ok()?;
        let output = self.numbers(record.printed, record.printed)?;
        let heap = self.numbers(heap_count, heap_length)?;
        let stack = self.entries(stack_count, sys::STACK_ENTRIES)?;
        let state = State { calls, output_most, record: Some(record), heap, output, registers, stack };
        Some(Paused { state, frames, tape }).filter(|_| self.0.is_empty())
    }
}

impl Paused {
    pub(crate) fn new(mut state: State, frames: &[u8], tape: &[u8]) -> Paused {
        state.output.truncate(state.printed());
        state.output.shrink_to_fit();
        Paused { state, frames: hash(frames), tape: hash(tape) }
    }

    /// Where the run is.
    pub fn record(&self) -> FrameRecord {
        self.state.record.unwrap_or_default()
    }

    /// The numbers that were printed so far.
    pub fn printed(&self) -> &[i32] {
        &self.state.output
    }

    /// The heap strip.
    pub fn heap(&self) -> &[i32] {
        &self.state.heap
    }

    /// The stack strip.
    pub fn stack(&self) -> &[u64] {
        &self.state.stack
    }

    fn is_of(&self, frames: &[u8], tape: &[u8]) -> Result<(), PauseError> {
        match (self.frames == hash(frames), self.tape == hash(tape)) {
            (false, _) => Err(PauseError::OtherFrames),
            (_, false) => Err(PauseError::OtherTape),
            _ => Ok(()),
        }
    }

    /// Goes on with the run, with a further budget. What it counts, it counts over all parts.
    pub fn resume(&self, frames: &[u8], budget: u32, price: u32, tape: &[u8]) -> Result<FrameRun, PauseError> {
        self.is_of(frames, tape)?;
        let mut state = self.state.clone();
        let a = state.part(frames, budget, price, tape);
        run_of(state, &a, frames, tape).map_err(PauseError::Refused)
    }

    /// Goes on with the run in parts of a budget each.
    pub fn parts<'a>(&self, frames: &'a [u8], budget: u32, price: u32, tape: &'a [u8]) -> Result<Parts<'a>, PauseError> {
        self.is_of(frames, tape)?;
        Ok(Parts::from_state(self.state.clone(), frames, budget, price, tape))
    }

    /// The bytes as which it can be stored; [`Paused::from_bytes`] reads them back.
    pub fn to_bytes(&self) -> Vec<u8> {
        let (heap, stack) = (without_last_zeros(self.heap()), without_last_zeros(self.stack()));
        let lengths = [self.state.calls as u64, self.heap().len() as u64, self.state.output_most as u64];
        let counts = [heap.len() as u64, stack.len() as u64];
        let numbers = [&lengths[..], &[self.frames, self.tape], &numbers_of(&self.record()), &counts].concat();
        let mut made = [NAME, &[VERSION]].concat();
        numbers.iter().for_each(|n| made.extend(n.to_le_bytes()));
        made.extend(self.state.registers);
        self.printed().iter().chain(heap).for_each(|n| made.extend(n.to_le_bytes()));
        stack.iter().for_each(|n| made.extend(n.to_le_bytes()));
        made.extend(hash(&made).to_le_bytes());
        made
    }

    /// Reads back what was stored. Bytes that were changed are refused.
    pub fn from_bytes(stored: &[u8]) -> Result<Paused, PauseError> {
        let rest = stored.strip_prefix(NAME).ok_or(PauseError::Damaged)?;
        if rest.first().map_or(false, |&v| v != VERSION) {
            return Err(PauseError::OtherVersion);
        }
        let hashed = stored.len().checked_sub(HASH_BYTES).ok_or(PauseError::Damaged)?;
        if hash(&stored[..hashed]).to_le_bytes() != stored[hashed..] {
            return Err(PauseError::Damaged);
        }
        let within = stored[..hashed].get(NAME.len() + 1..).ok_or(PauseError::Damaged)?;
        Rest(within).paused().ok_or(PauseError::Damaged)
    }
}

#[cfg(test)]
mod tests {
    use super::*;
    use crate::{frames, parts, run_frames, FrameLimits, Kind};

    const LESSON: &[u8] = b"class M{public static void main(String[] a){System.out.println(new A().a(9)+Port.get(2));}}
        class A{int[] b; public int a(int c){
            b=new int[c]; b[1]=4; while(0<c){b[1]=b[1]+c; c=c-1; System.out.println(b[1]);} return b[1];}}";
    const TAPE: &[u8] = &[9];
    const PRINTED: &[i32] = &[13, 21, 28, 34, 39, 43, 46, 48, 49, 58];

    fn limits(budget: u32, price: u32) -> FrameLimits {
        FrameLimits { budget, price, ..FrameLimits::default() }
    }

    /// The lesson's frames, and its run after a first part.
    fn first_part(budget: u32) -> (Vec<u8>, Paused) {
        let text = frames(LESSON).expect("it is accepted");
        let paused = run_frames(&text, &limits(budget, 1), TAPE).expect("it runs").paused.expect("the budget is spent");
        (text, paused)
    }

    #[test]
    fn parts_that_are_stored_end_as_one_run() {
        let text = frames(LESSON).expect("it is accepted");
        let whole = run_frames(&text, &limits(10_000, 10), TAPE).expect("it runs");
        assert_eq!((whole.end, &whole.printed[..]), (None, PRINTED));
        for budget in [10, 11, 37, 150] {
            let mut run = run_frames(&text, &limits(budget, 10), TAPE).expect("it runs");
            while let Some(paused) = run.paused {
                let stored = Paused::from_bytes(&paused.to_bytes());
                assert_eq!(stored.as_ref(), Ok(&paused));
                run = stored.expect("it was stored").resume(&text, budget, 10, TAPE).expect("it goes on");
            }
            assert_eq!(run, whole);
            let printed: Vec<i32> = parts(&text, &limits(budget, 10), TAPE).flat_map(|p| p.expect("it goes on").printed).collect();
            assert_eq!(printed, whole.printed);
        }
    }

    #[test]
    fn a_run_goes_on_in_parts() {
        let (text, paused) = first_part(80);
        let mut run = paused.parts(&text, 20, 1, TAPE).expect("it is of these frames");
        let next = run.next().expect("there is more").expect("it goes on");
        assert_eq!(next.frames, 100);
        let printed: Vec<i32> = run.flat_map(|p| p.expect("it goes on").printed).collect();
        assert_eq!([paused.printed(), &next.printed, &printed].concat(), PRINTED);
    }

    #[test]
    fn parts_end_where_they_should() {
        let text = frames(LESSON).expect("it is accepted");
        assert!(parts(&text, &limits(10, 1), TAPE).pause().is_none());
        let mut refused = parts(&text, &limits(10, 2), TAPE);
        assert_eq!(refused.next(), Some(Err(Refusal { kind: Kind::PriceUnfit, position: 0 })));
        assert_eq!(refused.next(), None);
        let mut finished = parts(&text, &limits(10_000, 1), TAPE);
        assert_eq!(finished.by_ref().count(), 1);
        assert!(finished.pause().is_none());
        let mut unpaid = parts(&text, &limits(0, 1), TAPE);
        assert_eq!(unpaid.by_ref().count(), 1);
        assert!(unpaid.pause().is_some());
    }

    #[test]
    fn a_pause_belongs_to_its_frames_and_its_tape() {
        let (text, paused) = first_part(80);
        assert_eq!(paused.resume(&text[11..], 1, 1, TAPE), Err(PauseError::OtherFrames));
        assert_eq!(paused.resume(&text, 1, 1, &[]), Err(PauseError::OtherTape));
        assert_eq!(paused.resume(&text, u32::MAX, 1, TAPE), Err(PauseError::Refused(Refusal { kind: Kind::RecordUnfit, position: 0 })));
        assert_eq!(paused.resume(&text, 1, 3, TAPE), Err(PauseError::Refused(Refusal { kind: Kind::PriceUnfit, position: 0 })));
    }

    #[test]
    fn bytes_that_were_changed_are_no_pause() {
        let stored = first_part(80).1.to_bytes();
        for k in (0..200).chain((200..stored.len()).step_by(97)) {
            let mut other = stored.clone();
            other[k] ^= 1;
            let due = if k == NAME.len() { PauseError::OtherVersion } else { PauseError::Damaged };
            assert_eq!(Paused::from_bytes(&other), Err(due), "byte {}", k);
        }
        for length in [0, 7, 8, 15, 16, stored.len() - 1] {
            assert_eq!(Paused::from_bytes(&stored[..length]), Err(PauseError::Damaged), "{} bytes", length);
        }
        assert_eq!(Paused::from_bytes(&[&stored[..], b"0"].concat()), Err(PauseError::Damaged));
    }

    /// Bytes whose last hash is right, but which no pause is stored as.
    #[test]
    fn lengths_that_do_not_fit_are_refused() {
        let stored = first_part(80).1.to_bytes();
        for number in [1, 9, 14, 15] {
            let mut other = stored[..stored.len() - HASH_BYTES].to_vec();
            let at = NAME.len() + 1 + 8 * number;
            other[at..at + 8].fill(255);
            other.extend(hash(&other).to_le_bytes());
            assert_eq!(Paused::from_bytes(&other), Err(PauseError::Damaged), "number {}", number);
        }
    }
}
