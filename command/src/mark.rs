//! Is what a lesson printed what was expected?

/// How bayrun says that a run ended.
#[derive(Clone, Copy, Debug, PartialEq, Eq)]
pub struct Ending {
    pub number: u32,
    pub position: usize,
    pub steps: usize,
    pub words: usize,
}

impl Ending {
    pub fn words(&self) -> String {
        format!("= {} {} {} {}", self.number, self.position, self.steps, self.words)
    }
}

pub struct Expected {
    pub numbers: Vec<i32>,
    /// None where nothing is said of it: then the run must finish.
    pub ending: Option<Ending>,
}

fn ending(words: &[&str]) -> Option<Ending> {
    match words {
        [number, position, steps, heap] => {
            Some(Ending { number: number.parse().ok()?, position: position.parse().ok()?, steps: steps.parse().ok()?, words: heap.parse().ok()? })
        }
        _ => None,
    }
}

/// What a file expects; or the word in it that is none.
pub fn expected(text: &[u8]) -> Result<Expected, String> {
    let text = String::from_utf8_lossy(text);
    let words: Vec<&str> = text.split_whitespace().collect();
    let count = words.iter().position(|&w| w == "=").unwrap_or(words.len());
    let mut numbers = Vec::new();
    for word in &words[..count] {
        numbers.push(word.parse().map_err(|_| (*word).to_owned())?);
    }
    let ending = if count < words.len() { Some(ending(&words[count + 1..]).ok_or("=")?) } else { None };
    Ok(Expected { numbers, ending })
}

/// The first number that differs: which one it is, from 1, what was printed and what was expected.
#[derive(Clone, Copy)]
pub struct Difference {
    pub index: usize,
    pub printed: Option<i32>,
    pub expected: Option<i32>,
}

pub fn difference(printed: &[i32], expected: &[i32]) -> Option<Difference> {
    (0..printed.len().max(expected.len()))
        .map(|k| Difference { index: k + 1, printed: printed.get(k).copied(), expected: expected.get(k).copied() })
        .find(|d| d.printed != d.expected)
}

impl Difference {
    pub fn words(&self) -> String {
        match (self.printed, self.expected) {
            (Some(p), Some(e)) => format!("number {} is {}, expected {}", self.index, p, e),
            (None, Some(e)) => format!("number {} is missing, expected {}", self.index, e),
            (Some(p), None) => format!("number {} is {}, where no more were expected", self.index, p),
            (None, None) => "no difference".to_owned(),
        }
    }
}
