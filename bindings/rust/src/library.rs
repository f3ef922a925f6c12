//! What is wrong with a library. Join says where; the number that Read's rules give is found by asking again.

use crate::{join, Kind, Refusal};

/// A lesson to which every library can be joined.
const SMALLEST: &[u8] = b"class M{public static void main(String[]a){{}}}";

/// Where Join refuses a library.
fn refused_at(library: &[u8]) -> Option<usize> {
    join(SMALLEST, library).err().map(|refusal| refusal.position)
}

/// The end of the token at a position, or of one behind it: a token is a mark of one byte or two, or within a run of letters, digits, underscores and points.
fn token_end(library: &[u8], at: usize) -> usize {
    let run = library[at..].iter().take_while(|b| b.is_ascii_alphanumeric() || matches!(b, b'_' | b'.')).count();
    let mark = if library[at..].starts_with(b"&&") { 2 } else { 1 };
    at + if run > 0 { run } else { mark }
}

/// Whether a library all of whose tokens are good, and which is refused at a position, is not in the grammar; else it is too deep there.
///
/// What is refused at its end is not in the grammar. Else it is cut off behind the token at that place. If no library begins with the tokens up to this one, it is refused at
/// the same place again; if the whole is in the grammar, it is cut off within a class, and refused at its end.
fn is_ungrammatical(library: &[u8], at: usize) -> bool {
    at == library.len() || refused_at(&library[..token_end(library, at)]) == Some(at)
}

/// The bounds of bytes and tokens, and what is wrong with a token, come before the grammar, so Read finds the same in a library as Join does.
fn is_found_by_read(kind: Kind) -> bool {
    !matches!(kind, Kind::NotInGrammar | Kind::TooDeep)
}

pub fn read(library: &[u8]) -> Result<(), Refusal> {
    let position = match refused_at(library) {
        None => return Ok(()),
        Some(position) => position,
    };
    match crate::read(library) {
        Err(refusal) if is_found_by_read(refusal.kind) => Err(refusal),
        _ if is_ungrammatical(library, position) => Err(Refusal { kind: Kind::NotInGrammar, position }),
        _ => Err(Refusal { kind: Kind::TooDeep, position }),
    }
}

#[cfg(test)]
mod tests {
    use super::*;

    /// A library of a class in which `@` stands before the first part that is too deep, and what is put behind it.
    fn deep(behind: &str) -> String {
        format!("class A{{public int a(){{a={}@a;/*}}*/return 0;}}}}{}", "!".repeat(63), behind)
    }

    /// `@` stands before the place that is due.
    fn assert_refused(marked: &str, kind: Kind) {
        let position = marked.find('@').expect("a mark");
        let library = marked.replace('@', "");
        assert_eq!(read(library.as_bytes()), Err(Refusal { kind, position }), "{}", marked);
    }

    #[test]
    fn a_library_is_zero_or_more_classes() {
        assert_eq!(read(b""), Ok(()));
        assert_eq!(read(b" class A{} /**/ class A extends B{int a;}"), Ok(()));
    }

    #[test]
    fn what_is_wrong_with_a_token_or_a_bound() {
        assert_refused(&format!("@{}", " ".repeat(16385)), Kind::SourceTooLong);
        assert_refused("class A{} @#", Kind::NoToken);
        assert_refused("} class @/*", Kind::CommentNotClosed);
        assert_refused(&format!("class @{}{{}}", "x".repeat(256)), Kind::NameTooLong);
        assert_refused("class A{} @2147483648", Kind::LiteralTooLarge);
        assert_refused("; @00", Kind::LeadingZero);
        assert_refused("@1.5", Kind::NotThreeDigits);
        assert_refused(&format!("{}@;", ";".repeat(2048)), Kind::TooManyTokens);
    }

    #[test]
    fn what_is_wrong_with_the_grammar() {
        for marked in ["@x", "@1.500", "class@", "class A{}@}", "class A{int a;@", "class A{}@&&", "class A{} class @class", "class A{int @1.500.x;}"] {
            assert_refused(marked, Kind::NotInGrammar);
        }
        assert_refused("class M{public @static void main(String[] a){{}}}", Kind::NotInGrammar);
        assert_refused(&format!("{}@{}", "class A{}".repeat(500), "}".repeat(48)), Kind::NotInGrammar);
        // The first part that is too deep comes before, but the grammar first.
        assert_refused(&deep("").replace('@', "").replace("return 0;", "return @;"), Kind::NotInGrammar);
    }

    #[test]
    fn what_is_too_deep() {
        for behind in ["", " ", "\n// }", "/*}*/"] {
            assert_refused(&deep(behind), Kind::TooDeep);
        }
        assert_refused(&deep(&" ".repeat(16385 - deep("").len())), Kind::TooDeep);
        // The first class has 81 tokens, the others 4 and 7: together as many as there may be.
        let full = deep(&("class B{}".repeat(490) + "class C{int c;}"));
        assert_refused(&full, Kind::TooDeep);
        assert_refused(&(full.replace('@', "") + "@;"), Kind::TooManyTokens);
    }
}
