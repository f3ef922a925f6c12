//! What requests (xii) and (xiii) say of frames, held against the independent implementation itself.

use crate::device::REGISTERS;
use crate::frame_machine::{FrameLimits, FrameReport, Record, Strips, SPENT, STUCK};
use crate::machine::{Limits, Report};
use crate::operations::{self, STACK_LEAST, TABLE_LEAST};
use crate::refusal::Refusal;

/// What strips hold before a run.
const FILLING: u8 = 0x5a;

/// A budget, and the price of a call.
pub type Part = (u32, u32);

/// A text of frames, and what is the same in all parts of its run; the budget is none of it.
#[derive(Clone, Copy)]
pub struct Setting<'a> {
    pub text: &'a [u8],
    pub limits: Limits,
    pub tape: &'a [u8],
}

impl Setting<'_> {
    fn strips(&self) -> Strips {
        Strips {
            heap: vec![i32::from(FILLING); self.limits.heap],
            output: vec![i32::from(FILLING); self.limits.output],
            registers: vec![FILLING; REGISTERS],
            stack: vec![u64::from(FILLING); STACK_LEAST],
        }
    }

    /// A run in parts, up to the first end other than 50: how it ended, and what the strips hold then.
    fn run(&self, parts: &[Part]) -> Result<(FrameReport, Strips), Refusal> {
        let mut strips = self.strips();
        let limits = |&(budget, price): &Part| FrameLimits { budget, calls: self.limits.calls, price };
        let mut report = operations::run_frames(self.text, limits(&parts[0]), &mut strips, self.tape)?;
        for part in &parts[1..] {
            if report.number != SPENT {
                break;
            }
            report = operations::continue_frames(self.text, report.record, limits(part), &mut strips, self.tape)?;
        }
        Ok((report, strips))
    }

    /// Parts at one price equal one run with the sum of their budgets.
    pub fn are_parts_right(&self, budgets: &[u32], price: u32) -> bool {
        let parts: Vec<Part> = budgets.iter().map(|&budget| (budget, price)).collect();
        self.run(&parts) == self.run(&[(budgets.iter().sum(), price)])
    }

    /// Parts at any prices carry out what one run does that carries out as many frames.
    pub fn are_prices_right(&self, parts: &[Part]) -> bool {
        let ended = match self.run(parts) {
            Ok((report, strips)) => (FrameReport { record: Record { unspent: 0, ..report.record }, ..report }, strips),
            Err(refusal) => return self.run(&parts[..1]) == Err(refusal),
        };
        self.run(&[(ended.0.frames as u32, 1)]) == Ok(ended)
    }

    /// The frames of a lesson never end in 70, and where neither they nor Run end in 50 they end alike.
    pub fn is_run_kept(&self, source: &[u8], parts: &[Part]) -> bool {
        match (self.run_lesson(source), self.run(parts)) {
            (Ok(run), Ok((report, strips))) => {
                report.number != STUCK && (run.number == SPENT || report.number == SPENT || is_alike(&run, &report, &strips))
            }
            (Err(due), Err(refusal)) => due == refusal,
            _ => false,
        }
    }

    fn run_lesson(&self, source: &[u8]) -> Result<Report, Refusal> {
        operations::run(source, TABLE_LEAST, self.limits, REGISTERS, self.tape)
    }

    /// A run of s steps that does not end in 50 takes at most 4 s + 1 frames. With a budget of 64 s + 64, ten times as much where a call
    /// costs 10, they do not end in 50.
    pub fn are_frames_bounded(&self, source: &[u8]) -> bool {
        let steps = match self.run_lesson(source) {
            Ok(run) if run.number != SPENT => run.steps,
            _ => return true,
        };
        let is_bounded = |price: u32| {
            let budget = (64 * steps as u32 + 64) * price;
            self.run(&[(budget, price)]).map_or(false, |(report, _)| report.number != SPENT && report.frames <= 4 * steps + 1)
        };
        is_bounded(1) && is_bounded(10)
    }
}

fn is_alike(run: &Report, report: &FrameReport, strips: &Strips) -> bool {
    let are_numbers_alike = run.number == report.number && run.words == report.words as u64;
    are_numbers_alike && run.printed == strips.output[..report.printed] && run.registers[..] == strips.registers[..]
}
