//! An answer as one JSON object on a line.

use crate::place::place;
use crate::source::Finding;
use std::fmt::Write;

pub struct Object {
    text: String,
}

fn quoted(text: &str) -> String {
    let mut made = String::from("\"");
    for c in text.chars() {
        match c {
            '"' | '\\' => {
                made.push('\\');
                made.push(c);
            }
            c if c.is_control() => write!(made, "\\u{:04x}", c as u32).expect("a string takes all"),
            c => made.push(c),
        }
    }
    made.push('"');
    made
}

impl Object {
    pub fn empty() -> Object {
        Object { text: String::from("{") }
    }

    /// Of a lesson with which all went well; line and column are null.
    pub fn good(file: &str, name: &str) -> Object {
        let mut made = Object::empty();
        made.text("file", file);
        made.number("number", 0);
        made.number("position", 0);
        made.number_or_null::<usize>("line", None);
        made.number_or_null::<usize>("column", None);
        made.text("name", name);
        made.text("words", "");
        made
    }

    /// Of a refusal, a fault or a limit: number, position, line, column and words.
    pub fn of(finding: &Finding) -> Object {
        let found = place(&finding.file.text, finding.position);
        let mut made = Object::empty();
        made.text("file", &finding.file.name);
        made.number("number", finding.kind.number());
        made.number("position", finding.position);
        made.number("line", found.line);
        made.number("column", found.column);
        made.text("name", finding.kind.name());
        made.text("words", &finding.words());
        if let Some(fault) = finding.fault() {
            made.number("fault", fault);
        }
        made
    }

    fn raw(&mut self, key: &str, value: &str) {
        let comma = if self.text.len() > 1 { ", " } else { "" };
        write!(self.text, "{}{}: {}", comma, quoted(key), value).expect("a string takes all");
    }

    pub fn text(&mut self, key: &str, value: &str) {
        self.raw(key, &quoted(value));
    }

    pub fn number<N: ToString>(&mut self, key: &str, value: N) {
        self.raw(key, &value.to_string());
    }

    pub fn number_or_null<N: ToString>(&mut self, key: &str, value: Option<N>) {
        self.raw(key, &value.map_or("null".to_owned(), |v| v.to_string()));
    }

    /// Bytes as text; null where they are none.
    pub fn bytes(&mut self, key: &str, value: &[u8]) {
        self.raw(key, &std::str::from_utf8(value).map_or("null".to_owned(), quoted));
    }

    pub fn truth(&mut self, key: &str, value: bool) {
        self.raw(key, if value { "true" } else { "false" });
    }

    pub fn numbers<N: ToString>(&mut self, key: &str, values: &[N]) {
        let listed: Vec<String> = values.iter().map(N::to_string).collect();
        self.raw(key, &format!("[{}]", listed.join(", ")));
    }

    pub fn objects(&mut self, key: &str, values: Vec<Object>) {
        let listed: Vec<String> = values.into_iter().map(Object::closed).collect();
        self.raw(key, &format!("[{}]", listed.join(", ")));
    }

    fn closed(mut self) -> String {
        self.text.push('}');
        self.text
    }

    pub fn line(self) -> String {
        self.closed() + "\n"
    }
}
