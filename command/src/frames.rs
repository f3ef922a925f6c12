//! Frames on the command line: a lesson's, and runs of frames, which can pause and go on in another process.

use crate::json::Object;
use crate::listing;
use crate::show::name;
use crate::source::Source;
use crate::usage::{Asked, OfFrames};
use crate::{good, name_at, numbers, refused, replace, wrong, written, Said, PAUSED};
use lesson_engine::{FrameLimits, FrameRun, Limits, PauseError, Paused, Refusal};

/// The names of the classes, in the order of the lesson.
fn classes(text: &[u8]) -> Result<Vec<String>, Refusal> {
    let mut positions = lesson_engine::menu(text)?;
    positions.sort_unstable();
    Ok(positions.into_iter().map(|p| name_at(text, p)).collect())
}

/// The frames of a lesson, as they are or as a list.
pub fn show(asked: &Asked, source: &Source) -> Result<Said, Refusal> {
    let frames = lesson_engine::frames(source.text())?;
    if !asked.is_list {
        return Ok(written(asked, source, "frames", &frames));
    }
    let lines = listing::lines(source, &classes(source.text())?, &frames);
    if !asked.is_json {
        return Ok(good(lines.iter().map(listing::Line::shown).collect()));
    }
    let mut object = Object::good(&source.lesson.name, "frames");
    object.objects("lines", lines.iter().map(listing::Line::object).collect());
    Ok(good(object.line()))
}

/// A paused run that was saved, and the name of its file.
pub struct Saved {
    pub name: String,
    pub paused: Paused,
}

/// The run from its begin, or from where it paused.
fn part(asked: &Asked, of: &OfFrames, source: &Source, saved: Option<&Saved>, tape: &[u8]) -> Result<FrameRun, Said> {
    let refusal = |r: Refusal| refused(asked, &source.finding(&r));
    let Limits { budget, calls, heap, output } = asked.limits;
    let (budget, price) = (of.pause.as_ref().map_or(budget, |p| p.after), of.price);
    match saved {
        None => lesson_engine::run_frames(source.text(), &FrameLimits { budget, price, calls, heap, output }, tape).map_err(refusal),
        Some(saved) => saved.paused.resume(source.text(), budget, price, tape).map_err(|e| match e {
            PauseError::Refused(r) => refusal(r),
            e => wrong(&format!("{}: {}", saved.name, e)),
        }),
    }
}

/// The object of a run; of the printed numbers it has those of this part.
fn run_object(source: &Source, run: &FrameRun, before: usize, is_saved: bool) -> Object {
    let mut object = run.end.map_or_else(|| Object::good(&source.lesson.name, "finished"), |r| Object::of(&source.finding(&r)));
    object.number("frames", run.frames);
    object.number("heap_words", run.words);
    object.numbers("printed", &run.printed[before..]);
    object.numbers("registers", &run.registers);
    object.truth("saved", is_saved);
    object
}

/// What is said of a run before its numbers: of one that pauses after it is saved.
fn ended(asked: &Asked, of: &OfFrames, source: &Source, run: &FrameRun) -> Result<Said, Said> {
    let (pause, paused) = match (&of.pause, &run.paused) {
        (Some(pause), Some(paused)) => (pause, paused),
        _ => return Ok(run.end.map_or_else(|| good(String::new()), |r| refused(asked, &source.finding(&r)))),
    };
    let save = name(&pause.save);
    replace::save(&pause.save, &paused.to_bytes()).map_err(|e| wrong(&format!("{}: {}", save, e)))?;
    let words = format!("{}: paused after {} frames, saved in {}\n", source.lesson.name, run.frames, save);
    Ok(Said { output: Vec::new(), errors: if asked.is_json { String::new() } else { words }, status: PAUSED })
}

/// Runs frames.
pub fn run(asked: &Asked, of: &OfFrames, source: &Source, saved: Option<&Saved>, tape: &[u8]) -> Result<Said, Said> {
    let run = part(asked, of, source, saved, tape)?;
    let mut said = ended(asked, of, source, &run)?;
    let before = saved.map_or(0, |s| s.paused.printed().len());
    let object = || run_object(source, &run, before, said.status == PAUSED).line();
    said.output = if asked.is_json { object() } else { numbers(&run.printed[before..]) }.into_bytes();
    Ok(said)
}
