//! Where a position stands in a lesson, and how its line is shown to people.

/// How many columns of a long line are shown, and how many of these at least stand before the place where the line goes on to both sides.
const SHOWN: usize = 100;
const BEFORE: usize = 60;
const TAB: usize = 4;
const CUT: &str = "...";

/// A line, counted from 1; a column in bytes, counted from 1; and the line itself, without its end.
pub struct Place<'a> {
    pub line: usize,
    pub column: usize,
    text: &'a [u8],
}

pub fn place(lesson: &[u8], position: usize) -> Place<'_> {
    let at = position.min(lesson.len());
    let start = lesson[..at].iter().rposition(|&b| b == b'\n').map_or(0, |k| k + 1);
    let end = lesson[at..].iter().position(|&b| b == b'\n').map_or(lesson.len(), |k| at + k);
    let line = 1 + lesson[..start].iter().filter(|&&b| b == b'\n').count();
    Place { line, column: 1 + at - start, text: &lesson[start..end] }
}

/// A character as it is shown: where it begins in the line, and text of one column for each of its characters.
struct Cell {
    at: usize,
    shown: String,
}

/// Whether a terminal shows a character as it is, in one column. Of the others some change the direction of what follows, or take no column or two.
fn is_plain(c: char) -> bool {
    matches!(c, ' '..='~' | '\u{a1}'..='\u{ac}' | '\u{ae}'..='\u{17f}') || (matches!(c, '\u{391}'..='\u{3c9}' | '\u{400}'..='\u{481}') && c.is_alphabetic())
}

fn cells(line: &[u8]) -> Vec<Cell> {
    let mut made: Vec<Cell> = Vec::new();
    let mut column = 0;
    let mut at = 0;
    while at < line.len() {
        let end = line.len().min(at + 4);
        let known = match std::str::from_utf8(&line[at..end]) {
            Ok(text) => text.chars().next(),
            Err(e) => std::str::from_utf8(&line[at..at + e.valid_up_to()]).ok().and_then(|text| text.chars().next()),
        };
        let shown = match known {
            Some('\t') => " ".repeat(TAB - column % TAB),
            Some(c) if is_plain(c) => c.to_string(),
            Some(c) if c.is_ascii() => format!("\\x{:02x}", c as u32),
            Some(c) => format!("\\u{{{:x}}}", c as u32),
            None => format!("\\x{:02x}", line[at]),
        };
        column += shown.chars().count();
        made.push(Cell { at, shown });
        at += known.map_or(1, char::len_utf8);
    }
    made
}

impl Place<'_> {
    /// The line, or the part of a long one around the place; and how many columns stand before the place.
    pub fn shown(&self) -> (String, usize) {
        let line = self.text.strip_suffix(b"\r").unwrap_or(self.text);
        let cells = cells(line);
        let marked = cells.iter().position(|c| c.at + 1 >= self.column).unwrap_or(cells.len());
        let widths: Vec<usize> = cells.iter().map(|c| c.shown.chars().count()).collect();
        let is_long = widths.iter().sum::<usize>() > SHOWN;
        let mut first = 0;
        if is_long {
            let mut before: usize = widths[..marked].iter().sum();
            while before > BEFORE {
                before -= widths[first];
                first += 1;
            }
        }
        let mut last = first;
        let mut width = 0;
        while last < cells.len() && (!is_long || width + widths[last] <= SHOWN) {
            width += widths[last];
            last += 1;
        }
        let lead = if first > 0 { CUT } else { "" };
        let tail = if last < cells.len() { CUT } else { "" };
        let middle: String = cells[first..last].iter().map(|c| c.shown.as_str()).collect();
        let columns = lead.len() + widths[first..marked.max(first)].iter().sum::<usize>();
        (format!("{}{}{}", lead, middle, tail), columns)
    }
}
