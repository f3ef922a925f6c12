//! `lesson`: checks, runs, marks, joins and tidies lessons and writes and runs frames on the command line, over the lesson engine. usage.rs says what it takes.

mod frames;
mod json;
mod listing;
mod mark;
mod place;
mod replace;
mod show;
mod source;
mod usage;

use frames::Saved;
use json::Object;
use lesson_engine::{Cause, Paused, Refusal, Run};
use mark::Ending;
use place::place;
use source::{File, Finding, Source};
use std::env;
use std::ffi::{OsStr, OsString};
use std::fs;
use std::io::{self, Read, Write};
use std::process::exit;
use usage::{Asked, Layout, Request, Task};

const GOOD: i32 = 0;
const REFUSED: i32 = 1;
const WRONG_USE: i32 = 2;
const PAUSED: i32 = 3;

/// A byte more than a lesson or a library may have, so that the engine refuses a longer one; the rest of it need not be read.
const LESSON_BYTES: u64 = lesson_engine::sys::SOURCE_MOST as u64 + 1;

/// What is written of one lesson, and the exit status that it asks for.
struct Said {
    output: Vec<u8>,
    errors: String,
    status: i32,
}

fn content(file: &OsStr, most: u64) -> io::Result<Vec<u8>> {
    let mut bytes = Vec::new();
    if file == "-" {
        io::stdin().take(most).read_to_end(&mut bytes)?;
    } else {
        fs::File::open(file)?.take(most).read_to_end(&mut bytes)?;
    }
    Ok(bytes)
}

/// A file's content, or what is to be said where it cannot be read.
fn opened(file: &OsStr, most: u64) -> Result<Vec<u8>, Said> {
    content(file, most).map_err(|e| wrong(&format!("{}: {}", show::name(file), e)))
}

/// A lesson, a library or frames.
fn text_of(file: &OsString, most: u64) -> Result<File, Said> {
    Ok(File { path: file.clone(), name: show::name(file), text: opened(file, most)? })
}

/// What is lent to every lesson.
struct Lent {
    library: Option<File>,
    tape: Vec<u8>,
    expected: Vec<u8>,
    saved: Option<Saved>,
}

fn saved(file: &OsString) -> Result<Saved, Said> {
    let name = show::name(file);
    let paused = Paused::from_bytes(&opened(file, u64::MAX)?).map_err(|e| wrong(&format!("{}: {}", name, e)))?;
    Ok(Saved { name, paused })
}

fn lent(asked: &Asked) -> Result<Lent, Said> {
    let bytes = |file: &Option<OsString>| file.as_ref().map_or(Ok(Vec::new()), |f| opened(f, u64::MAX));
    let library = asked.library.as_ref().map(|file| text_of(file, LESSON_BYTES)).transpose()?;
    let resume = asked.frames.as_ref().and_then(|of| of.resume.as_ref());
    Ok(Lent { library, tape: bytes(&asked.tape)?, expected: bytes(&asked.expected)?, saved: resume.map(saved).transpose()? })
}

fn wrong(message: &str) -> Said {
    Said { output: Vec::new(), errors: format!("lesson: {}\n", message), status: WRONG_USE }
}

fn good(output: String) -> Said {
    Said { output: output.into_bytes(), errors: String::new(), status: GOOD }
}

/// Of what was refused, or of a run that ended in a fault or at a limit.
fn refused(asked: &Asked, finding: &Finding) -> Said {
    if finding.kind.cause() == Cause::Call {
        return wrong(&format!("{} {}: {}", finding.kind.number(), finding.kind.name(), finding.words()));
    }
    if !asked.is_json {
        return Said { output: Vec::new(), errors: show::diagnostic(finding), status: REFUSED };
    }
    let mut object = Object::of(finding);
    if asked.task == Task::Mark {
        object.truth("right", false);
    }
    Said { output: object.line().into_bytes(), errors: String::new(), status: REFUSED }
}

fn check(asked: &Asked, source: &Source) -> Result<Said, Refusal> {
    let classes = lesson_engine::check(source.text())?;
    if !asked.is_json {
        return Ok(good(format!("{}: accepted\n", source.lesson.name)));
    }
    let mut object = Object::good(&source.lesson.name, "accepted");
    object.number("classes", classes);
    Ok(good(object.line()))
}

/// The name that stands at a position: letters, digits and underscores.
fn name_at(text: &[u8], position: usize) -> String {
    text[position..].iter().take_while(|b| b.is_ascii_alphanumeric() || **b == b'_').map(|&b| b as char).collect()
}

fn class_object(file: &File, position: usize) -> Object {
    let found = place(&file.text, position);
    let mut class = Object::empty();
    class.text("class", &name_at(&file.text, position));
    class.text("file", &file.name);
    class.number("position", position);
    class.number("line", found.line);
    class.number("column", found.column);
    class
}

fn menu(asked: &Asked, source: &Source) -> Result<Said, Refusal> {
    let positions = lesson_engine::menu(source.text())?;
    let spots = positions.iter().map(|&p| source.spot(p));
    if asked.is_json {
        let mut object = Object::good(&source.lesson.name, "accepted");
        object.objects("classes", spots.map(|(file, p)| class_object(file, p)).collect());
        return Ok(good(object.line()));
    }
    let line = |(file, p): (&File, usize)| {
        let found = place(&file.text, p);
        format!("{}:{}:{}: {}\n", file.name, found.line, found.column, name_at(&file.text, p))
    };
    Ok(good(spots.map(line).collect()))
}

/// The object of a run.
fn run_object(source: &Source, run: &Run) -> Object {
    let mut object = run.end.map_or_else(|| Object::good(&source.lesson.name, "finished"), |r| Object::of(&source.finding(&r)));
    object.number("steps", run.steps);
    object.number("climbs", run.climbs);
    object.number("heap_words", run.words);
    object.numbers("printed", &run.printed);
    object.numbers("registers", &run.registers);
    object
}

/// Numbers, a line each.
fn numbers(printed: &[i32]) -> String {
    printed.iter().map(|n| format!("{}\n", n)).collect()
}

fn run(asked: &Asked, source: &Source, tape: &[u8]) -> Result<Said, Refusal> {
    let run = lesson_engine::run(source.text(), &asked.limits, tape)?;
    let mut said = run.end.map_or_else(|| good(String::new()), |r| refused(asked, &source.finding(&r)));
    said.output = if asked.is_json { run_object(source, &run).line() } else { numbers(&run.printed) }.into_bytes();
    Ok(said)
}

/// Of a lesson as another text.
fn written(asked: &Asked, source: &Source, name: &str, text: &[u8]) -> Said {
    if !asked.is_json {
        return Said { output: text.to_owned(), errors: String::new(), status: GOOD };
    }
    let mut object = Object::good(&source.lesson.name, name);
    object.number("bytes", text.len());
    object.bytes("text", text);
    good(object.line())
}

/// Of a lesson's own layout, or of what was done about it.
fn laid_out(asked: &Asked, source: &Source, name: &str, status: i32) -> Said {
    let line = if asked.is_json { Object::good(&source.lesson.name, name).line() } else { format!("{}: {}\n", source.lesson.name, name) };
    Said { status, ..good(line) }
}

/// Puts the tidy text into the lesson's file, where it is a lesson again: it may have grown too long.
fn replaced(asked: &Asked, source: &Source, text: &[u8]) -> Said {
    if lesson_engine::check(text).is_err() {
        return laid_out(asked, source, "not tidy, and its tidy text is too long for a lesson", REFUSED);
    }
    match replace::replace(&source.lesson.path, text) {
        Ok(()) => laid_out(asked, source, "made tidy", GOOD),
        Err(e) => wrong(&format!("{}: {}", source.lesson.name, e)),
    }
}

fn tidy(asked: &Asked, source: &Source) -> Result<Said, Refusal> {
    let text = lesson_engine::tidy(source.text())?;
    let is_tidy = text == source.text();
    Ok(match asked.layout {
        Layout::Show => written(asked, source, "tidy", &text),
        Layout::Check | Layout::Write if is_tidy => laid_out(asked, source, "tidy", GOOD),
        Layout::Check => laid_out(asked, source, "not tidy", REFUSED),
        Layout::Write => replaced(asked, source, &text),
    })
}

/// How a run ended, as bayrun says it.
fn ending(run: &Run) -> Ending {
    Ending { number: run.end.map_or(0, |r| r.kind.number()), position: run.end.map_or(0, |r| r.position), steps: run.steps, words: run.words }
}

fn mark(asked: &Asked, source: &Source, lent: &Lent) -> Result<Said, Refusal> {
    let expected = match mark::expected(&lent.expected) {
        Err(word) => return Ok(wrong(&format!("what is expected has '{}', which is no number", word.escape_default()))),
        Ok(expected) => expected,
    };
    let run = lesson_engine::run(source.text(), &asked.limits, &lent.tape)?;
    let difference = mark::difference(&run.printed, &expected.numbers);
    let ended = ending(&run);
    let is_ended_right = expected.ending.map_or(run.end.is_none(), |e| e == ended);
    let is_right = difference.is_none() && is_ended_right;
    let mut said = Said { output: Vec::new(), errors: String::new(), status: if is_right { GOOD } else { REFUSED } };
    if asked.is_json {
        let mut object = run_object(source, &run);
        object.truth("right", is_right);
        object.number_or_null("first_difference", difference.map(|d| d.index));
        object.number_or_null("expected", difference.and_then(|d| d.expected));
        said.output = object.line().into_bytes();
        return Ok(said);
    }
    let file = &source.lesson.name;
    let mut lines = String::new();
    if is_right {
        lines = format!("{}: right, {} numbers\n", file, run.printed.len());
    }
    if let Some(d) = difference {
        lines = format!("{}: {}\n", file, d.words());
    }
    if let (false, Some(e)) = (is_ended_right, expected.ending) {
        lines += &format!("{}: ends {}, expected {}\n", file, ended.words(), e.words());
    }
    if let (false, Some(r)) = (is_ended_right, run.end) {
        said.errors = show::diagnostic(&source.finding(&r));
    }
    said.output = lines.into_bytes();
    Ok(said)
}

/// Answers for a text that the operations take.
fn answer_source(asked: &Asked, source: &Source, lent: &Lent) -> Result<Said, Refusal> {
    match (asked.task, &asked.frames) {
        (Task::Check, _) => check(asked, source),
        (Task::Run, None) => run(asked, source, &lent.tape),
        (Task::Run, Some(of)) => Ok(frames::run(asked, of, source, lent.saved.as_ref(), &lent.tape).unwrap_or_else(|said| said)),
        (Task::Menu, _) => menu(asked, source),
        (Task::Mark, _) => mark(asked, source, lent),
        (Task::Join, _) => Ok(written(asked, source, "joined", source.text())),
        (Task::Tidy, _) => tidy(asked, source),
        (Task::Frames, _) => frames::show(asked, source),
    }
}

/// Answers for one lesson, or for one text of frames.
fn answer(asked: &Asked, file: &OsString, lent: &Lent) -> Result<Said, Said> {
    let lesson = text_of(file, if asked.frames.is_some() { u64::MAX } else { LESSON_BYTES })?;
    let source = match &lent.library {
        Some(library) => Source::joined(&lesson, library).map_err(|finding| refused(asked, &finding))?,
        None => Source::alone(&lesson),
    };
    answer_source(asked, &source, lent).map_err(|refusal| refused(asked, &source.finding(&refusal)))
}

/// Writes what is said. A reader that has gone away, as `head` does, is no fault.
fn write(said: &Said) -> i32 {
    let written = io::stdout().write_all(&said.output).and_then(|_| io::stdout().flush());
    match written {
        Err(e) if e.kind() != io::ErrorKind::BrokenPipe => {
            let _ = writeln!(io::stderr(), "lesson: standard output: {}", e);
            return WRONG_USE;
        }
        _ => {}
    }
    let _ = io::stderr().write_all(said.errors.as_bytes());
    said.status
}

fn main() {
    let asked = match usage::request(env::args_os().skip(1).collect()) {
        Request::Help => exit(write(&good(usage::HELP.to_owned()))),
        Request::Wrong(message) => exit(write(&wrong(&format!("{}; 'lesson --help' says what can be asked", message)))),
        Request::Do(asked) => asked,
    };
    let lent = lent(&asked).unwrap_or_else(|said| exit(write(&said)));
    let mut status = GOOD;
    for file in &asked.files {
        let said = answer(&asked, file, &lent).unwrap_or_else(|said| said);
        status = status.max(write(&said));
    }
    exit(status);
}
