//! Bytes to tokens: refusals 10 to 15, 60 and 65.

use crate::refusal::{refuse, Refusal};

pub const SOURCE_MOST: usize = 16384;
const TOKENS_MOST: usize = 2048;
const NAME_MOST: usize = 255;
/// The largest int, and the largest count of thousandths.
const LITERAL_MOST: u64 = 2147483647;
const FRACTION_DIGITS: usize = 3;

const RESERVED: [&str; 19] = [
    "boolean", "class", "else", "extends", "false", "if", "int", "length", "main", "new", "public", "return", "static", "String", "System", "this", "true", "void", "while",
];
/// Reserved since requests (viii) and (ix).
const RESERVED_LATER: [&str; 2] = ["Port", "fixed"];

#[derive(Clone, Debug, PartialEq, Eq)]
pub enum Kind {
    Name(String),
    Literal(i32),
    /// A literal of type fixed: the count of thousandths.
    FixedLiteral(i32),
    /// A reserved word or a mark.
    Word(&'static str),
}

#[derive(Clone, Debug)]
pub struct Token {
    pub at: usize,
    pub kind: Kind,
}

const MARKS: [&str; 16] = ["&&", "<", "+", "-", "*", "!", "=", ".", ",", ";", "(", ")", "[", "]", "{", "}"];

/// Where the comment ends that opens at `at`; none where it is never closed.
fn comment_end(source: &[u8], at: usize) -> Option<usize> {
    let mut depth = 1;
    let mut k = at + 2;
    while depth > 0 {
        let rest = &source[k..];
        if rest.starts_with(b"/*") {
            depth += 1;
            k += 2;
        } else if rest.starts_with(b"*/") {
            depth -= 1;
            k += 2;
        } else if rest.is_empty() {
            return None;
        } else {
            k += 1;
        }
    }
    Some(k)
}

fn run_length(source: &[u8], belongs: fn(u8) -> bool) -> usize {
    source.iter().take_while(|&&b| belongs(b)).count()
}

fn is_name_part(b: u8) -> bool {
    b.is_ascii_alphanumeric() || b == b'_'
}

fn is_digit(b: u8) -> bool {
    b.is_ascii_digit()
}

fn name(text: &str, at: usize) -> Result<Kind, Refusal> {
    if text.len() > NAME_MOST {
        return refuse(13, at);
    }
    let reserved = RESERVED.iter().chain(&RESERVED_LATER).find(|w| **w == text);
    Ok(reserved.map_or_else(|| Kind::Name(text.to_owned()), |w| Kind::Word(w)))
}

/// How long the literal is that begins here: a run of digits, and directly after it a point and a run of digits, where both are there.
pub fn literal_length(source: &[u8]) -> usize {
    let whole = run_length(source, is_digit);
    match source[whole..].strip_prefix(b".").map_or(0, |after| run_length(after, is_digit)) {
        0 => whole,
        fraction => whole + 1 + fraction,
    }
}

fn literal(text: &str, at: usize) -> Result<Kind, Refusal> {
    let (whole, fraction) = text.split_once('.').map_or((text, None), |(whole, fraction)| (whole, Some(fraction)));
    if whole.len() > 1 && whole.starts_with('0') {
        return refuse(60, at);
    }
    if fraction.map_or(false, |digits| digits.len() != FRACTION_DIGITS) {
        return refuse(65, at);
    }
    match text.replace('.', "").parse::<u64>() {
        Ok(value) if value <= LITERAL_MOST => Ok(if fraction.is_some() { Kind::FixedLiteral(value as i32) } else { Kind::Literal(value as i32) }),
        _ => refuse(14, at),
    }
}

pub fn tokens(source: &[u8]) -> Result<Vec<Token>, Refusal> {
    if source.len() > SOURCE_MOST {
        return refuse(10, 0);
    }
    let mut tokens = Vec::new();
    let mut at = 0;
    while at < source.len() {
        let rest = &source[at..];
        let first = rest[0];
        if matches!(first, b' ' | b'\t' | b'\n' | b'\r' | 0x0c) {
            at += 1;
            continue;
        }
        if rest.starts_with(b"//") {
            at += rest.iter().position(|&b| b == b'\n').unwrap_or(rest.len());
            continue;
        }
        if rest.starts_with(b"/*") {
            match comment_end(source, at) {
                Some(end) => at = end,
                None => return refuse(12, at),
            }
            continue;
        }
        let mark = MARKS.iter().find(|m| rest.starts_with(m.as_bytes()));
        let length = match mark {
            Some(m) => m.len(),
            None if first.is_ascii_alphabetic() => run_length(rest, is_name_part),
            None if is_digit(first) => literal_length(rest),
            None => return refuse(11, at),
        };
        if tokens.len() == TOKENS_MOST {
            return refuse(15, at);
        }
        let text = std::str::from_utf8(&rest[..length]).expect("a token is ASCII");
        let kind = match mark {
            Some(m) => Kind::Word(m),
            None if is_digit(first) => literal(text, at)?,
            None => name(text, at)?,
        };
        tokens.push(Token { at, kind });
        at += length;
    }
    Ok(tokens)
}
