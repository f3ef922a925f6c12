//! An independent implementation of documents 01 and 02, and of docs/FRAMES.md, written from these papers alone, and its comparison with the library.
//!
//! `reference compare [SEED [COUNT]]` compares the two on lessons from seeds, valid and damaged, long and short: what each operation answers and what every strip holds afterwards.
//! `reference answer` answers lines on standard input as the program `cases` does, and `reference binding` does so through the safe binding in bindings/rust.

mod cases;
mod checker;
mod compare;
mod compare_frames;
mod damage;
mod device;
mod encoder;
mod frame_cases;
mod frame_damage;
mod frame_machine;
mod frame_properties;
mod frames;
mod generator;
mod lent;
mod lexer;
mod library_frames;
mod machine;
mod operations;
mod parser;
mod printer;
mod properties;
mod random;
mod refusal;
mod tree;

use cases::Answerer;
use std::env;
use std::io::{self, BufRead};
use std::process::exit;
use std::thread;

/// The parser and the machine call themselves as deep as a lesson is nested.
const STACK_BYTES: usize = 1 << 28;

const SEED: u64 = 1;
const COUNT: u64 = 8000;

fn answers(who: Answerer) -> bool {
    for line in io::stdin().lock().lines() {
        let line = line.expect("a line of text");
        println!("{}", cases::answer(who, &line).unwrap_or_else(|| "no case".to_owned()));
    }
    true
}

fn work() -> bool {
    let words: Vec<String> = env::args().skip(1).collect();
    let number = |k: usize, default: u64| words.get(k).map_or(Some(default), |w| w.parse().ok());
    match (words.first().map(String::as_str), number(1, SEED), number(2, COUNT)) {
        (Some("answer"), ..) => answers(Answerer::Reference),
        (Some("binding"), ..) => answers(Answerer::Binding),
        (Some("compare"), Some(seed), Some(count)) => compare::compare(seed, count),
        _ => {
            eprintln!("usage: reference compare [SEED [COUNT]] | reference answer < CASES | reference binding < CASES");
            exit(2);
        }
    }
}

fn main() {
    let is_right = thread::Builder::new().stack_size(STACK_BYTES).spawn(work).expect("a thread").join().expect("an answer");
    exit(if is_right { 0 } else { 1 });
}
