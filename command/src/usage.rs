//! What is asked for: the words of the command line.

use lesson_engine::{FrameLimits, Limits};
use std::ffi::OsString;

pub const HELP: &str = "\
lesson: checks, runs, marks, joins and tidies MiniJava lessons, and writes and runs frames

  lesson check FILE..            is each lesson accepted?
  lesson run FILE [LIMITS]       runs a lesson and prints its numbers, one a line
  lesson menu FILE               the classes of a lesson, each below the one that it extends
  lesson mark FILE EXPECTED [LIMITS]
                                 runs a lesson and says whether it prints the numbers of the file EXPECTED,
                                 and if not which is the first that differs
  lesson join FILE LIBRARY       the lesson, and behind it each class of the library whose name no class of
                                 the lesson has
  lesson tidy FILE               the lesson in the house layout, without its comments
  lesson tidy --check FILE..     is each lesson in that layout already?
  lesson tidy --write FILE..     puts each lesson into that layout, in its file

  lesson frames FILE             the lesson as frames, stack code for a reader: docs/FRAMES.md has the code table
  lesson frames --list FILE      the same for people: each line with its number, its name and its operand in words;
                                 a position is shown as LINE:COLUMN of the lesson
  lesson run --frames FILE [LIMITS] [PAUSE]
                                 runs frames and prints their numbers, one a line

  FILE is a file, or - for standard input.
  EXPECTED has numbers, separated by blanks or line feeds. Where its last line is one that bayrun prints,
  '= NUMBER POSITION STEPS WORDS', the run must end so; else it must finish.
  LIBRARY has class declarations only.

LIMITS:
  --budget N     steps, 0 to 4294967295 (100000); of a run of frames what these may cost (400001)
  --calls N      open calls, 1 to 64 (64)
  --heap N       words of objects and arrays, 0 to 16384 (4096)
  --output N     printed numbers (256)
  --tape FILE    the samples that come in over the cable, a byte each (none)
  --price N      of a run of frames what a call costs, 1 or 10 (1); every other frame costs 1

PAUSE:
  --pause-after N --save SAVE
                 the budget of this part, in the place of --budget; where it is spent, the run is saved in a file
  --resume SAVE  goes on with the run that is saved there, with the same frames, tape and limits but for the budget
                 and the price, and prints the numbers that come

  --library FILE the library is joined to each lesson first; what stands in one of its classes is shown there
  --json         one object a lesson, on a line of its own, on standard output
  --help         this text

A refusal, fault or limit is shown on standard error as FILE:LINE:COLUMN: NUMBER NAME: SENTENCE, with the line and
a mark under the place. A column counts bytes, from 1. docs/REFUSALS.md has all numbers.

Exit status: 0 accepted, finished, right or tidy; 1 refused, a fault, a limit, wrong numbers or not tidy; 2 wrong
use, or a file that cannot be read or written; 3 paused and saved.
";

/// What to do with the lessons.
#[derive(Clone, Copy, PartialEq, Eq)]
pub enum Task {
    Check,
    Run,
    Menu,
    Mark,
    Join,
    Tidy,
    Frames,
}

/// What to do with the house layout.
#[derive(Clone, Copy, Default, PartialEq, Eq)]
pub enum Layout {
    #[default]
    Show,
    Check,
    Write,
}

impl Task {
    fn named(word: &str) -> Option<Task> {
        match word {
            "check" => Some(Task::Check),
            "run" => Some(Task::Run),
            "menu" => Some(Task::Menu),
            "mark" => Some(Task::Mark),
            "join" => Some(Task::Join),
            "tidy" => Some(Task::Tidy),
            "frames" => Some(Task::Frames),
            _ => None,
        }
    }

    /// What stands after the lesson, where something does.
    fn second(self) -> Option<&'static str> {
        match self {
            Task::Mark => Some("what is expected"),
            Task::Join => Some("a library"),
            _ => None,
        }
    }

    fn takes_many(self, layout: Layout) -> bool {
        self == Task::Check || layout != Layout::Show
    }

    fn is_run(self) -> bool {
        matches!(self, Task::Run | Task::Mark)
    }
}

/// Where a run of frames is to pause.
pub struct Pause {
    pub after: u32,
    pub save: OsString,
}

/// How frames are run.
pub struct OfFrames {
    pub price: u32,
    pub pause: Option<Pause>,
    pub resume: Option<OsString>,
}

pub struct Asked {
    pub task: Task,
    pub files: Vec<OsString>,
    pub expected: Option<OsString>,
    pub limits: Limits,
    pub tape: Option<OsString>,
    pub library: Option<OsString>,
    pub layout: Layout,
    /// There where the file has frames.
    pub frames: Option<OfFrames>,
    pub is_list: bool,
    pub is_json: bool,
}

pub enum Request {
    Help,
    Do(Asked),
    Wrong(String),
}

/// The words of a command line: those that are no options, and what the options say.
#[derive(Default)]
struct Words {
    plain: Vec<OsString>,
    limits: Limits,
    budget: Option<u32>,
    tape: Option<OsString>,
    library: Option<OsString>,
    layout: Layout,
    price: Option<u32>,
    pause_after: Option<u32>,
    save: Option<OsString>,
    resume: Option<OsString>,
    is_frames: bool,
    is_list: bool,
    is_json: bool,
    is_help: bool,
    /// An option that a run takes, one that a run keeps over a pause, and one that a run of frames takes.
    of_run: Option<String>,
    of_whole: Option<String>,
    of_frames: Option<String>,
}

/// The value of an option, which stands after `=` or is the next word.
fn value(name: &str, inline: Option<&str>, rest: &mut dyn Iterator<Item = OsString>) -> Result<OsString, String> {
    match inline {
        Some(text) => Ok(OsString::from(text)),
        None => rest.next().ok_or_else(|| format!("{} needs a value", name)),
    }
}

fn number<T: std::str::FromStr>(name: &str, text: OsString) -> Result<T, String> {
    let shown = text.to_string_lossy().into_owned();
    let is_decimal = !shown.is_empty() && shown.bytes().all(|b| b.is_ascii_digit());
    shown.parse().ok().filter(|_| is_decimal).ok_or_else(|| format!("{} takes a number in its range, not '{}'", name, shown))
}

impl Words {
    /// Takes an option, and the next words where its value is one.
    fn take(&mut self, name: &str, inline: Option<&str>, rest: &mut dyn Iterator<Item = OsString>) -> Result<(), String> {
        match name {
            "--help" | "-h" => self.is_help = true,
            "--json" => self.is_json = true,
            "--check" | "--write" if self.layout != Layout::Show => return Err("--check or --write is given, and once".to_owned()),
            "--check" => self.layout = Layout::Check,
            "--write" => self.layout = Layout::Write,
            "--library" => self.library = Some(value(name, inline, rest)?),
            "--list" => self.is_list = true,
            "--frames" => self.is_frames = true,
            "--price" => self.price = Some(number(name, value(name, inline, rest)?)?),
            "--pause-after" => self.pause_after = Some(number(name, value(name, inline, rest)?)?),
            "--save" => self.save = Some(value(name, inline, rest)?),
            "--resume" => self.resume = Some(value(name, inline, rest)?),
            "--budget" => self.budget = Some(number(name, value(name, inline, rest)?)?),
            "--calls" => self.limits.calls = number(name, value(name, inline, rest)?)?,
            "--heap" => self.limits.heap = number(name, value(name, inline, rest)?)?,
            "--output" => self.limits.output = number(name, value(name, inline, rest)?)?,
            "--tape" => self.tape = Some(value(name, inline, rest)?),
            _ => return Err(format!("there is no option {}", name)),
        }
        let given = || Some(name.to_owned());
        match name {
            "--budget" | "--tape" => self.of_run = given(),
            "--calls" | "--heap" | "--output" => (self.of_run, self.of_whole) = (given(), given()),
            "--frames" | "--price" | "--pause-after" | "--save" | "--resume" => self.of_frames = given(),
            _ => {}
        }
        Ok(())
    }

    fn of(words: Vec<OsString>) -> Result<Words, String> {
        let mut made = Words::default();
        let mut rest = words.into_iter();
        while let Some(word) = rest.next() {
            let text = word.to_string_lossy().into_owned();
            if text == "--" {
                made.plain.extend(rest.by_ref());
            } else if text == "-" || !text.starts_with('-') {
                made.plain.push(word);
            } else {
                let (name, inline) = text.split_once('=').map_or((text.as_str(), None), |(name, value)| (name, Some(value)));
                made.take(name, inline, &mut rest)?;
            }
            if made.is_help {
                break;
            }
        }
        Ok(made)
    }

    /// Refuses options that a task does not take.
    fn fit(&self, task: Task, name: &str) -> Result<(), String> {
        let is_input = self.plain.iter().any(|file| file == "-");
        let message = match (&self.of_run, self.layout) {
            (Some(option), _) if !task.is_run() => format!("'lesson {}' runs nothing, so it takes no {}", name, option),
            (_, Layout::Check | Layout::Write) if task != Task::Tidy => format!("'lesson {}' takes neither --check nor --write", name),
            (_, Layout::Check | Layout::Write) if self.library.is_some() => "--check and --write are about a lesson without a library".to_owned(),
            (_, Layout::Write) if is_input => "standard input cannot be written to".to_owned(),
            _ if task == Task::Join && self.library.is_some() => "'lesson join' takes its library as the second file".to_owned(),
            _ => return Ok(()),
        };
        Err(message)
    }

    /// Refuses options of frames that do not go together.
    fn fit_frames(&self, task: Task, name: &str) -> Result<(), String> {
        let message = match (&self.of_frames, &self.of_whole) {
            (Some(option), _) if task != Task::Run => format!("'lesson {}' runs no frames, so it takes no {}", name, option),
            (Some(option), _) if !self.is_frames => format!("{} is about a run of frames: --frames is given with it", option),
            (Some(_), _) if self.library.is_some() => "frames take no library".to_owned(),
            _ if self.pause_after.is_some() != self.save.is_some() => "--pause-after and --save are given together".to_owned(),
            _ if self.pause_after.is_some() && self.budget.is_some() => "--pause-after is a budget, so --budget is not given".to_owned(),
            _ if self.save.as_ref().map_or(false, |file| file == "-") => "a run is saved in a file".to_owned(),
            (_, Some(option)) if self.resume.is_some() => format!("a run keeps its limits over a pause, so --resume takes no {}", option),
            _ if self.is_list && task != Task::Frames => format!("'lesson {}' takes no --list", name),
            _ => return Ok(()),
        };
        Err(message)
    }

    fn frames(&mut self) -> Option<OfFrames> {
        let pause = self.pause_after.zip(self.save.take()).map(|(after, save)| Pause { after, save });
        let price = self.price.unwrap_or(FrameLimits::default().price);
        Some(OfFrames { price, pause, resume: self.resume.take() }).filter(|_| self.is_frames)
    }

    fn limits(&self) -> Limits {
        let usual = if self.is_frames { FrameLimits::default().budget } else { Limits::default().budget };
        Limits { budget: self.budget.unwrap_or(usual), ..self.limits }
    }

    fn asked(mut self) -> Result<Asked, String> {
        if self.plain.is_empty() {
            return Err("no command is given".to_owned());
        }
        let name = self.plain.remove(0).to_string_lossy().into_owned();
        let task = Task::named(&name).ok_or_else(|| format!("there is no command '{}'", name))?;
        self.fit(task, &name)?;
        self.fit_frames(task, &name)?;
        let (limits, frames) = (self.limits(), self.frames());
        let mut files = self.plain;
        let wanted = 1 + task.second().iter().count();
        if files.len() < wanted || (files.len() > wanted && !task.takes_many(self.layout)) {
            let second = task.second().map_or(String::new(), |s| format!(" and {}", s));
            let first = if frames.is_some() { "a file of frames" } else { "a lesson" };
            return Err(format!("'lesson {}' takes {}{}", name, first, second));
        }
        let second = task.second().and_then(|_| files.pop());
        let (expected, library) = if task == Task::Join { (None, second) } else { (second, self.library) };
        let resume = frames.as_ref().and_then(|of| of.resume.as_ref());
        let inputs = files.iter().chain(&expected).chain(&library).chain(&self.tape).chain(resume).filter(|f| *f == "-").count();
        if inputs > 1 {
            return Err("standard input can be read once only".to_owned());
        }
        let Words { tape, layout, is_list, is_json, .. } = self;
        Ok(Asked { task, files, expected, limits, tape, library, layout, frames, is_list, is_json })
    }
}

pub fn request(words: Vec<OsString>) -> Request {
    match Words::of(words) {
        Ok(words) if words.is_help => Request::Help,
        Ok(words) => words.asked().map_or_else(Request::Wrong, Request::Do),
        Err(message) => Request::Wrong(message),
    }
}
