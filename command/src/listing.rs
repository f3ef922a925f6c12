//! The frames of a lesson as people read them: docs/FRAMES.md has the code table.

use crate::json::Object;
use crate::place::place;
use crate::source::Source;

/// Bytes of a line: two digits of the code, eight of the operand, a line feed.
const LINE: usize = 11;

/// What an operand says.
#[derive(Clone, Copy)]
enum Operand {
    Nothing,
    Position,
    Word,
    Place,
    Operator,
    Line,
    Class,
    Call,
}

/// The name of each code, and what its operand says.
const CODES: [(&str, Operand); 24] = [
    ("mark", Operand::Position),
    ("push", Operand::Word),
    ("load", Operand::Place),
    ("save", Operand::Place),
    ("self", Operand::Nothing),
    ("negate", Operand::Nothing),
    ("return", Operand::Nothing),
    ("halt", Operand::Nothing),
    ("operate", Operand::Operator),
    ("jump", Operand::Line),
    ("unless", Operand::Line),
    ("keep", Operand::Line),
    ("fetch", Operand::Position),
    ("measure", Operand::Position),
    ("makeArray", Operand::Position),
    ("print", Operand::Position),
    ("storeElement", Operand::Position),
    ("makeObject", Operand::Class),
    ("call", Operand::Call),
    ("get", Operand::Position),
    ("put", Operand::Position),
    ("scale", Operand::Nothing),
    ("entry", Operand::Line),
    ("none", Operand::Nothing),
];

const OPERATORS: [&str; 4] = ["<", "+", "-", "*"];

/// How many places a row has; behind them fields are counted.
const PLACES: u32 = 32;

/// A line of frames.
pub struct Line {
    number: usize,
    code: u32,
    name: &'static str,
    operand: u32,
    words: String,
}

fn counted(count: u32, name: &str) -> String {
    format!("{} {}{}", count, name, if count == 1 { "" } else { "s" })
}

/// Where a position stands: the line and the column, after the file where that is the library's.
fn spot(source: &Source, position: usize) -> String {
    let (file, at) = source.spot(position);
    let found = place(&file.text, at);
    let name = if file.name == source.lesson.name { String::new() } else { format!("{}:", file.name) };
    format!("{}{}:{}", name, found.line, found.column)
}

fn words(source: &Source, classes: &[String], says: Operand, operand: u32) -> String {
    match says {
        Operand::Nothing => String::new(),
        Operand::Position => spot(source, operand as usize),
        Operand::Word => (operand as i32).to_string(),
        Operand::Place if operand < PLACES => format!("place {}", operand),
        Operand::Place => format!("field {}", operand - PLACES),
        Operand::Operator => OPERATORS[operand as usize].to_owned(),
        Operand::Line => format!("line {}", operand),
        Operand::Class => format!("{}, {}", classes[(operand >> 16) as usize], counted(operand & 0xffff, "field")),
        Operand::Call => format!("table at line {}, {}", operand >> 8, counted(operand & 0xff, "argument")),
    }
}

fn line(source: &Source, classes: &[String], number: usize, text: &[u8]) -> Line {
    let digits = |from: usize, to: usize| {
        let digits = std::str::from_utf8(&text[from..to]).expect("digits");
        u32::from_str_radix(digits, 16).expect("hexadecimal digits")
    };
    let (code, operand) = (digits(0, 2), digits(2, LINE - 1));
    let (name, says) = CODES[code as usize];
    Line { number, code, name, operand, words: words(source, classes, says, operand) }
}

/// The lines of a lesson's frames; its classes are those of the class table, in the order of the lesson.
pub fn lines(source: &Source, classes: &[String], frames: &[u8]) -> Vec<Line> {
    frames.chunks(LINE).enumerate().map(|(number, text)| line(source, classes, number, text)).collect()
}

impl Line {
    pub fn shown(&self) -> String {
        format!("{:>5} {:<12} {}", self.number, self.name, self.words).trim_end().to_owned() + "\n"
    }

    pub fn object(&self) -> Object {
        let mut made = Object::empty();
        made.number("line", self.number);
        made.number("code", self.code);
        made.text("name", self.name);
        made.number("operand", self.operand);
        made.text("words", &self.words);
        made
    }
}
