//! What is lent to the library: strips that hold something other than 0, with words beside them that nothing may touch.

const BESIDE: usize = 4;

/// A number that can fill a strip.
pub trait Filling: Copy + PartialEq {
    const ZERO: Self;
    /// Never 0.
    fn filling(k: usize) -> Self;
}

macro_rules! filling {
    ($kind:ty) => {
        impl Filling for $kind {
            const ZERO: $kind = 0;
            fn filling(k: usize) -> $kind {
                (k % 100 + 1) as $kind
            }
        }
    };
}

filling!(u8);
filling!(u32);
filling!(i32);
filling!(u64);

pub struct Strip<T> {
    words: Vec<T>,
    length: usize,
}

impl<T: Filling> Strip<T> {
    pub fn new(length: usize) -> Strip<T> {
        Strip { words: (0..length + 2 * BESIDE).map(T::filling).collect(), length }
    }

    pub fn holding(words: &[T]) -> Strip<T> {
        let mut strip = Strip::new(words.len());
        strip.lent().copy_from_slice(words);
        strip
    }

    pub fn lent(&mut self) -> &mut [T] {
        &mut self.words[BESIDE..BESIDE + self.length]
    }

    /// Whether it begins with these, and is otherwise as it was made.
    pub fn begins(&self, with: impl ExactSizeIterator<Item = T>) -> bool {
        let expected = (0..BESIDE).map(T::filling).chain(with).collect::<Vec<T>>();
        let rest = (expected.len()..self.words.len()).map(T::filling);
        self.words[..expected.len()] == expected[..] && self.words[expected.len()..].iter().copied().eq(rest)
    }

    /// Whether it holds just these.
    pub fn is_holding(&self, words: &[T]) -> bool {
        self.begins(words.iter().copied())
    }

    pub fn is_unchanged(&self) -> bool {
        self.begins([].into_iter())
    }

    pub fn is_zero(&self) -> bool {
        self.begins(vec![T::ZERO; self.length].into_iter())
    }
}
