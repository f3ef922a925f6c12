//! A refusal, fault or limit: its number and its position.

#[derive(Clone, Copy, Debug, PartialEq, Eq)]
pub struct Refusal {
    pub number: u32,
    pub at: usize,
}

pub fn refuse<T>(number: u32, at: usize) -> Result<T, Refusal> {
    Err(Refusal { number, at })
}
