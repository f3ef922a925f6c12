//! What the requests say of the texts that operations write, held against the independent implementation itself.

use crate::device::REGISTERS;
use crate::lexer::{self, Kind, Token};
use crate::machine::{Limits, Report};
use crate::operations::{self, TABLE_LEAST};
use crate::random::Random;
use crate::refusal::Refusal;
use crate::tree::Program;

fn tree(source: &[u8]) -> Result<Program, Refusal> {
    operations::read(source, TABLE_LEAST).map(|r| r.program)
}

/// Request (x): a joined text has the lesson's classes and then those that are kept, and joined again it gets a line feed more; or it is too
/// long to be read.
pub fn is_joined_right(source: &[u8], library: &[u8], text: &[u8]) -> bool {
    let mut due = tree(source).expect("what is joined is read");
    due.classes.extend(operations::kept(&due, library).expect("what is joined is read"));
    match tree(text) {
        Ok(joined) => joined == due && operations::join(text, TABLE_LEAST, library, text.len() + 1) == Ok([text, b"\n"].concat()),
        Err(refusal) => [10, 15].contains(&refusal.number),
    }
}

/// Request (xi): a lesson and its joined text, where both are accepted, run alike.
pub fn is_run_kept(source: &[u8], text: &[u8], limits: Limits, tape: &[u8]) -> bool {
    let run = |source: &[u8]| -> Option<Report> { operations::run(source, TABLE_LEAST, limits, REGISTERS, tape).ok() };
    match (run(source), run(text)) {
        (Some(before), Some(after)) => before == after,
        _ => true,
    }
}

/// The token that closes the parenthesis which token `opening` opens, in a lesson that is accepted.
fn closing(tokens: &[Token], opening: usize) -> &Token {
    let mut depth = 0;
    for token in &tokens[opening..] {
        match token.kind {
            Kind::Word("(") => depth += 1,
            Kind::Word(")") => depth -= 1,
            _ => {}
        }
        if depth == 0 {
            return token;
        }
    }
    unreachable!("an accepted lesson closes its parentheses");
}

/// The text of an accepted lesson, with blanks for one of its pairs of parentheses.
fn without_a_pair(random: &mut Random, text: &[u8]) -> Vec<u8> {
    let tokens = lexer::tokens(text).expect("what is accepted has tokens");
    let openings: Vec<usize> = (0..tokens.len()).filter(|&k| tokens[k].kind == Kind::Word("(")).collect();
    let opening = random.pick(&openings);
    let mut made = text.to_vec();
    made[tokens[opening].at] = b' ';
    made[closing(&tokens, opening).at] = b' ';
    made
}

/// Request (v): a printed text has the lesson's tree, is printed as it is, and has no pair of parentheses too many: without any one pair it
/// is refused or has another tree. Of a text that is too long to be read nothing is said.
pub fn is_printed_right(random: &mut Random, source: &[u8], text: &[u8]) -> bool {
    if text.len() > lexer::SOURCE_MOST {
        return true;
    }
    let lesson = tree(source);
    let again = operations::print(text, TABLE_LEAST, text.len());
    tree(text) == lesson && again.as_deref() == Ok(text) && tree(&without_a_pair(random, text)) != lesson
}
