//! Lessons with something wrong with them, or something unusual: edits of a lesson, from a seed.

use crate::lexer;
use crate::random::Random;

const SOURCE_MOST: usize = 16384;
const TOKENS_MOST: usize = 2048;
const DEPTH_MOST: usize = 64;
const VARIABLES_MOST: usize = 32;
const NAME_MOST: usize = 255;

/// What an edit may put in: words and marks of the language, and what is none.
const PIECES: [&str; 65] = [
    "class", "extends", "public", "static", "void", "main", "String", "return", "if", "else", "while", "System", "out", "println", "length", "new", "this", "true", "false", "int",
    "boolean", "Port", "get", "put", "&&", "<", "+", "-", "*", "!", "=", ".", ",", ";", "(", ")", "[", "]", "{", "}", "a", "b", "C0", "C1", "Main", "x1", "0", "1", "00", "007",
    "2147483647", "2147483648", "99999999999999999999", "fixed", "1.500", "1.5", "#", "&", "/", "/*", "*/", "//", "_", "\u{b}", "\u{e4}",
];

/// Literals of both types, and what comes near to one.
const LITERALS: [&str; 20] = [
    "0", "1", "2147483647", "2147483648", "00", "007", "0.000", "1.500", "2147483.647", "2147483.648", "01.500", "00.5", "1.5", "1.5000", "2147483648.5", "1.", "1.length",
    "1.500.500", "1 .500", "99999999999999999999.999",
];

const TYPE_WORDS: [&str; 3] = ["int", "boolean", "fixed"];

/// The pieces of a lesson: a token each, with what stands before it, and what stands at the end.
fn pieces(lesson: &[u8]) -> Vec<Vec<u8>> {
    let starts: Vec<usize> = match lexer::tokens(lesson) {
        Ok(tokens) => tokens.iter().map(|t| t.at).collect(),
        Err(_) => (0..lesson.len()).step_by(3).collect(),
    };
    let mut made = Vec::new();
    let mut from = 0;
    for at in starts.into_iter().filter(|&at| at > 0).chain([lesson.len()]) {
        made.push(lesson[from..at].to_vec());
        from = at;
    }
    made
}

/// A piece that is not run together with its neighbours.
fn apart(text: &str) -> Vec<u8> {
    format!(" {} ", text).into_bytes()
}

/// One edit of some pieces.
fn edit_pieces(random: &mut Random, lesson: &[u8]) -> Vec<u8> {
    let mut parts = pieces(lesson);
    let k = random.below(parts.len());
    let other = random.below(parts.len());
    match random.below(9) {
        0 => {
            parts.remove(k);
        }
        1 => parts.insert(k, parts[k].clone()),
        2 => parts.swap(k, other),
        3 | 4 => parts[k] = [b" ", &parts[other][..], b" "].concat(),
        5 => parts[k] = apart(random.pick(&PIECES)),
        6 => parts.insert(k, apart(random.pick(&PIECES))),
        7 => parts.truncate(k),
        _ => {
            let span = parts[k.min(other)..k.max(other)].to_vec();
            let to = random.below(parts.len());
            parts.splice(to..to, span);
        }
    }
    parts.concat()
}

/// A name is put in the place of another.
fn rename(random: &mut Random, lesson: &[u8]) -> Vec<u8> {
    let tokens = match lexer::tokens(lesson) {
        Ok(tokens) => tokens,
        Err(_) => return lesson.to_vec(),
    };
    let names: Vec<(usize, &str)> = tokens
        .iter()
        .filter_map(|t| match &t.kind {
            lexer::Kind::Name(n) => Some((t.at, n.as_str())),
            _ => None,
        })
        .collect();
    if names.is_empty() {
        return lesson.to_vec();
    }
    let (at, name) = random.pick(&names);
    let with = if random.once_in(6) { "unknown" } else { random.pick(&names).1 };
    [&lesson[..at], with.as_bytes(), &lesson[at + name.len()..]].concat()
}

/// A literal is put in the place of another, or the word of a type in that of another.
fn exchange(random: &mut Random, lesson: &[u8]) -> Vec<u8> {
    let tokens = lexer::tokens(lesson).unwrap_or_default();
    let places: Vec<(usize, usize, &[&str])> = tokens
        .iter()
        .filter_map(|t| match &t.kind {
            lexer::Kind::Literal(_) | lexer::Kind::FixedLiteral(_) => Some((t.at, lexer::literal_length(&lesson[t.at..]), &LITERALS[..])),
            lexer::Kind::Word(word) if TYPE_WORDS.contains(word) => Some((t.at, word.len(), &TYPE_WORDS[..])),
            _ => None,
        })
        .collect();
    if places.is_empty() {
        return lesson.to_vec();
    }
    let (at, length, others) = random.pick(&places);
    [&lesson[..at], random.pick(others).as_bytes(), &lesson[at + length..]].concat()
}

/// Puts text in at some occurrence of a piece of text, where there is one.
fn put_in(random: &mut Random, lesson: &[u8], after: &str, text: &str) -> Vec<u8> {
    let after = after.as_bytes();
    let places: Vec<usize> = (0..lesson.len()).filter(|&k| lesson[k..].starts_with(after)).map(|k| k + after.len()).collect();
    if places.is_empty() {
        return lesson.to_vec();
    }
    let at = random.pick(&places);
    [&lesson[..at], text.as_bytes(), &lesson[at..]].concat()
}

/// Around a bound: a little less or a little more.
fn near(random: &mut Random, bound: usize) -> usize {
    bound + random.below(5) - 2
}

/// Something at one of the bounds.
fn at_a_bound(random: &mut Random, lesson: &[u8]) -> Vec<u8> {
    match random.below(6) {
        0 => {
            let blanks = near(random, SOURCE_MOST).saturating_sub(lesson.len());
            [lesson, &vec![b' '; blanks]].concat()
        }
        1 => {
            let count = lexer::tokens(lesson).map_or(0, |t| t.len());
            let more = near(random, TOKENS_MOST).saturating_sub(count);
            let (piece, tokens) = random.pick(&[("{}", 2), ("class Z{}", 4), (";", 1), ("00 ", 1), ("/**/&&", 1)]);
            [lesson, piece.repeat(more / tokens).as_bytes()].concat()
        }
        2 => {
            let nots = "!".repeat(near(random, DEPTH_MOST - 4));
            put_in(random, lesson, "if(", &(nots + "true&&"))
        }
        3 => {
            let blocks = near(random, DEPTH_MOST - 2);
            put_in(random, lesson, "else ", &("{".repeat(blocks) + &"}".repeat(blocks)))
        }
        4 => {
            let locals: String = (0..near(random, VARIABLES_MOST - 4)).map(|k| format!("int v{};", k)).collect();
            put_in(random, lesson, "int k2;", &locals)
        }
        _ => {
            let name = "n".repeat(near(random, NAME_MOST));
            put_in(random, lesson, "int k2;", &format!("int {};", name))
        }
    }
}

/// A class more, another parent, or `this` where main may stand.
fn edit_classes(random: &mut Random, lesson: &[u8]) -> Vec<u8> {
    let class = random.below(4);
    let parent = random.below(4);
    match random.below(6) {
        0 => [lesson, format!("class C{}{{}}", class).as_bytes()].concat(),
        1 => [lesson, format!("class N extends C{}{{public int b(int p){{return p;}}public boolean out(){{return true;}}}}", parent).as_bytes()].concat(),
        2 => [lesson, format!("class N extends N{} {{}}class N2 extends N{}{{}}class N3 extends N2{{}}", 1 + class, parent).as_bytes()].concat(),
        3 => [lesson, format!("class N extends C{}{{public int n(){{return 0;}}public int n(){{return 0;}}}}", parent).as_bytes()].concat(),
        4 => put_in(random, lesson, "println(", "this.b()+"),
        _ => put_in(random, lesson, &format!("class C{}", class), &format!(" extends C{}", parent)),
    }
}

fn overwrite(random: &mut Random, lesson: &[u8]) -> Vec<u8> {
    let mut made = lesson.to_vec();
    if !made.is_empty() {
        let k = random.below(made.len());
        made[k] = random.below(256) as u8;
    }
    made
}

/// Blanks and comments between the tokens: positions move, and nothing else.
fn spread(random: &mut Random, lesson: &[u8]) -> Vec<u8> {
    let gaps = [" ", "\n", "\t", "\r\n", "/**/", "/* /* nested */ */", "// to the end\n", "\u{c}"];
    pieces(lesson).into_iter().flat_map(|p| if random.once_in(5) { [random.pick(&gaps).as_bytes(), &p].concat() } else { p }).collect()
}

/// Any bytes, or tokens in any order.
fn noise(random: &mut Random) -> Vec<u8> {
    if random.once_in(2) {
        return (0..random.below(60)).map(|_| random.below(256) as u8).collect();
    }
    (0..random.below(120)).flat_map(|_| apart(random.pick(&PIECES))).collect()
}

pub fn damaged(random: &mut Random, lesson: &[u8]) -> Vec<u8> {
    if random.once_in(40) {
        return noise(random);
    }
    let mut made = lesson.to_vec();
    for _ in 0..1 + random.below(2) {
        made = match random.below(14) {
            0..=3 => edit_pieces(random, &made),
            4..=6 => rename(random, &made),
            7 => at_a_bound(random, &made),
            8 | 9 => edit_classes(random, &made),
            10 => overwrite(random, &made),
            11 | 12 => exchange(random, &made),
            _ => spread(random, &made),
        };
    }
    made
}
