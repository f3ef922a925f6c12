//! A lesson, alone or with a library under it: the text that the operations take, and where a position of that text stands in the files.

use lesson_engine::{Kind, Refusal};
use std::ffi::OsString;
use std::ops::Range;

/// A text, and the file that has it; the name is as it is shown.
pub struct File {
    pub path: OsString,
    pub name: String,
    pub text: Vec<u8>,
}

/// A class of the library that stands in the joined text: where it begins there, and where it stands in the library.
struct Kept {
    at: usize,
    class: Range<usize>,
}

pub struct Source<'a> {
    pub lesson: &'a File,
    library: Option<&'a File>,
    joined: Option<Vec<u8>>,
    kept: Vec<Kept>,
}

/// What a refusal is about, beside its number.
#[derive(Clone, Copy)]
pub enum About {
    /// The text of one file.
    File,
    /// A bound that lesson and library pass together.
    Both,
    /// The library, which Read's rules refuse by this kind.
    Library(Kind),
}

/// A refusal, a fault or a limit in the file where it stands.
pub struct Finding<'a> {
    pub file: &'a File,
    pub position: usize,
    pub kind: Kind,
    about: About,
}

impl Finding<'_> {
    pub fn words(&self) -> String {
        match self.about {
            About::File => self.kind.sentence().to_owned(),
            About::Both => format!("{} The classes of the library count too.", self.kind.sentence()),
            About::Library(fault) => format!("{} Read's number for it is {} {}.", self.kind.sentence(), fault.number(), fault.name()),
        }
    }

    /// Of a library the number that Read's rules give.
    pub fn fault(&self) -> Option<u32> {
        match self.about {
            About::Library(fault) => Some(fault.number()),
            _ => None,
        }
    }
}

/// How many bytes the comment has with which a text begins; 0 where it begins with none. Block comments nest.
fn comment(text: &[u8]) -> usize {
    if text.starts_with(b"//") {
        return text.iter().position(|&b| b == b'\n').unwrap_or(text.len());
    }
    if !text.starts_with(b"/*") {
        return 0;
    }
    let mut at = 2;
    let mut open = 1;
    while open > 0 && at < text.len() {
        let (change, step) = match &text[at..] {
            [b'/', b'*', ..] => (1, 2),
            [b'*', b'/', ..] => (-1, 2),
            _ => (0, 1),
        };
        open += change;
        at += step;
    }
    at
}

/// Where the classes of a library stand that Join takes: each begins with the word `class`, and ends with the last closing brace before the next.
fn classes(library: &[u8]) -> Vec<Range<usize>> {
    let mut found: Vec<Range<usize>> = Vec::new();
    let mut at = 0;
    while at < library.len() {
        let rest = &library[at..];
        let word = rest.iter().take_while(|b| b.is_ascii_alphanumeric() || **b == b'_').count();
        match (&rest[..word], found.last_mut()) {
            (b"class", _) => found.push(at..at),
            (b"", Some(last)) if rest[0] == b'}' => last.end = at + 1,
            _ => {}
        }
        at += word.max(comment(rest)).max(1);
    }
    found
}

/// The classes of a library that stand in a joined text, behind the lesson and a line feed. One that is not kept has the name of a class of the lesson, so none that is kept
/// begins with its bytes.
fn kept(joined: &[u8], lesson: usize, library: &[u8]) -> Vec<Kept> {
    let mut found = Vec::new();
    let mut at = lesson + 1;
    for class in classes(library) {
        if joined[at..].starts_with(&library[class.clone()]) {
            let length = class.len();
            found.push(Kept { at, class });
            at += length + 1;
        }
    }
    assert_eq!(at, joined.len(), "the joined text has other classes than were found in the library");
    found
}

impl<'a> Source<'a> {
    pub fn alone(lesson: &'a File) -> Source<'a> {
        Source { lesson, library: None, joined: None, kept: Vec::new() }
    }

    pub fn joined(lesson: &'a File, library: &'a File) -> Result<Source<'a>, Finding<'a>> {
        match lesson_engine::join(&lesson.text, &library.text) {
            Ok(text) => {
                let kept = kept(&text, lesson.text.len(), &library.text);
                Ok(Source { lesson, library: Some(library), joined: Some(text), kept })
            }
            Err(Refusal { kind: Kind::LibraryRefused, position }) => {
                let fault = lesson_engine::read_library(&library.text).expect_err("Join refuses it");
                Err(Finding { file: library, position, kind: Kind::LibraryRefused, about: About::Library(fault.kind) })
            }
            Err(Refusal { kind, position }) => Err(Finding { file: lesson, position, kind, about: About::File }),
        }
    }

    /// What the operations take.
    pub fn text(&self) -> &[u8] {
        self.joined.as_ref().unwrap_or(&self.lesson.text)
    }

    /// The file that a position of the text stands in, and where it stands there.
    pub fn spot(&self, position: usize) -> (&'a File, usize) {
        let within = |k: &&Kept| k.at <= position && position < k.at + k.class.len();
        match (self.library, self.kept.iter().find(within)) {
            (Some(library), Some(k)) => (library, k.class.start + position - k.at),
            _ => (self.lesson, position),
        }
    }

    pub fn finding(&self, refusal: &Refusal) -> Finding<'a> {
        let (file, position) = self.spot(refusal.position);
        let is_bound = matches!(refusal.kind, Kind::SourceTooLong | Kind::TooManyTokens);
        let about = if is_bound && self.library.is_some() { About::Both } else { About::File };
        Finding { file, position, kind: refusal.kind, about }
    }
}

#[cfg(test)]
mod tests {
    use super::*;

    #[test]
    fn comments_end_where_the_language_ends_them() {
        for (text, length) in [("x", 0), ("", 0), ("/", 0), ("//", 2), ("// /*\n*/", 5), ("/**/x", 4), ("/*/*/**/*/*/}", 12), ("/*//**/*/}", 9), ("*/", 0)] {
            assert_eq!(comment(text.as_bytes()), length, "{}", text);
        }
    }

    #[test]
    fn classes_begin_and_end_where_their_tokens_do() {
        let library = b"// class A{}\nclass A{int class_;/*class B{}*/} /* } */ class B extends A{public int a(){{}return 0;}}//}";
        let found: Vec<&[u8]> = classes(library).into_iter().map(|c| &library[c]).collect();
        assert_eq!(found, [&b"class A{int class_;/*class B{}*/}"[..], b"class B extends A{public int a(){{}return 0;}}"]);
        assert!(classes(b" /* class A{} */ ").is_empty());
    }
}
