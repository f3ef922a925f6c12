//! An answer as people read it.

use crate::place::place;
use crate::source::Finding;
use std::env;
use std::os::raw::c_int;

const STANDARD_ERROR: c_int = 2;

extern "C" {
    fn isatty(descriptor: c_int) -> c_int;
}

/// Whether standard error takes colour: where it is a terminal, and the user has not said otherwise (no-color.org).
fn is_coloured() -> bool {
    let is_wanted = env::var_os("NO_COLOR").map_or(true, |v| v.is_empty()) && env::var_os("TERM").map_or(false, |t| t != "dumb");
    is_wanted && unsafe { isatty(STANDARD_ERROR) } == 1
}

struct Style {
    strong: &'static str,
    mark: &'static str,
    plain: &'static str,
}

const COLOURED: Style = Style { strong: "\x1b[1;31m", mark: "\x1b[1;32m", plain: "\x1b[0m" };
const UNCOLOURED: Style = Style { strong: "", mark: "", plain: "" };

/// `FILE:LINE:COLUMN: NUMBER NAME: SENTENCE`, the line, and a mark under the place.
pub fn diagnostic(finding: &Finding) -> String {
    let style = if is_coloured() { COLOURED } else { UNCOLOURED };
    let place = place(&finding.file.text, finding.position);
    let (line, columns) = place.shown();
    format!(
        "{}:{}:{}: {}{} {}{}: {}\n    {}\n    {}{}^{}\n",
        finding.file.name,
        place.line,
        place.column,
        style.strong,
        finding.kind.number(),
        finding.kind.name(),
        style.plain,
        finding.words(),
        line,
        " ".repeat(columns),
        style.mark,
        style.plain
    )
}

/// A file's name on one line, and with nothing in it that a terminal would obey.
pub fn name(file: &std::ffi::OsStr) -> String {
    if file == "-" {
        return "<standard input>".to_owned();
    }
    file.to_string_lossy().chars().map(|c| if c.is_control() { '?' } else { c }).collect()
}
