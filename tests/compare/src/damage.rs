//! Faults for generated files: wrong words in lines, and wrong bytes.

use crate::generate::Row;
use crate::prng::Prng;
use crate::words::bad_item;

const WRONG_WORDS: &[&str] = &[
    "=",
    "*",
    "$",
    "$g0",
    "$none",
    "!",
    "!x",
    "*x",
    "model",
    "layout",
    "layout[1]",
    "variant[any]",
    "layout[0]",
    "symbols",
    "keycodes",
    "include",
    "//",
    "//x",
    "/",
    "x",
    "model[1]",
    "Symbols",
    "layout[first]x",
    "\\",
    "a\\b",
    "\u{1}",
    "\u{7f}",
    "\t",
    "\r",
    "\u{e9}",
    "$=",
    "==",
];

/// Puts a fault into one of the lines.
pub fn fault(rng: &mut Prng, rows: &mut Vec<Row>) {
    if rows.is_empty() {
        return;
    }
    let at = rng.below(rows.len());
    if rng.chance(15) {
        whole_line(rng, rows, at);
    } else {
        one_word(rng, &mut rows[at]);
    }
}

fn whole_line(rng: &mut Prng, rows: &mut Vec<Row>, at: usize) {
    let row = |heading: bool, words: &[&str]| Row {
        heading,
        words: words.iter().map(|word| word.to_string()).collect(),
    };
    match rng.below(8) {
        0 => rows.insert(at, row(true, &[])),
        1 => rows.insert(at, row(true, &["include", rng.pick(WRONG_WORDS)])),
        2 => rows.insert(at, row(true, &["$g0", "="])),
        3 => rows.insert(at, row(false, &[rng.pick(WRONG_WORDS)])),
        4 => rows.insert(at, row(true, &[rng.pick(WRONG_WORDS)])),
        5 => drop(rows.remove(at)),
        6 => rows[at].heading = !rows[at].heading,
        _ => {
            let copy = rows[at].clone();
            let to = rng.below(rows.len() + 1);
            rows.insert(to, copy);
        }
    }
}

fn one_word(rng: &mut Prng, row: &mut Row) {
    if row.words.is_empty() {
        return;
    }
    let at = rng.below(row.words.len());
    match rng.below(9) {
        0 => drop(row.words.remove(at)),
        1 => row.words.insert(at, rng.pick(WRONG_WORDS).into()),
        2 => row.words[at] = rng.pick(WRONG_WORDS).into(),
        3 => row.words.swap(0, at),
        4 => row.words[at] += rng.pick(WRONG_WORDS),
        5 => row.words[at] = "w".repeat(rng.between(255, 258)),
        6 => {
            let copy = row.words[at].clone();
            row.words.push(copy);
        }
        _ => {
            // The last word of a rule is a right word.
            let last = row.words.len() - 1;
            row.words[last] += bad_item(rng);
        }
    }
}

const BYTES: &[u8] = b"!$*=%/\\[]()+|-_:,ailmv12345 \t\n\n\\\r\x00\x1f\x7f\x80\xff";

/// Changes one to three places: bytes flipped, put in, dropped or cut off,
/// and lines joined.
pub fn bytes(rng: &mut Prng, rules: &mut Vec<u8>) {
    for _ in 0..rng.between(1, 3) {
        if rules.is_empty() {
            return;
        }
        let at = rng.below(rules.len());
        let byte = BYTES[rng.below(BYTES.len())];
        match rng.below(10) {
            0 => rules[at] ^= 1 << rng.below(8),
            1 | 2 => rules[at] = byte,
            3 | 4 => rules.insert(at, byte),
            5 => drop(rules.remove(at)),
            6 => rules.truncate(at),
            7 => drop(rules.splice(at..at, *b"\\\n")),
            8 => join_lines(rng, rules),
            _ => {
                let end = (at + rng.between(1, 12)).min(rules.len());
                rules.drain(at..end);
            }
        }
    }
}

/// Puts a backslash before one of the newlines.
fn join_lines(rng: &mut Prng, rules: &mut Vec<u8>) {
    let ends: Vec<usize> = (0..rules.len()).filter(|&i| rules[i] == b'\n').collect();
    if !ends.is_empty() {
        rules.insert(ends[rng.below(ends.len())], b'\\');
    }
}

const TOKENS: &[&str] = &[
    "!",
    "! ",
    "$g",
    " = ",
    "=",
    "model",
    "layout",
    "variant",
    "option",
    "[1]",
    "[any]",
    "[first]",
    "symbols",
    "types",
    " ",
    "\t",
    "\n",
    "\n",
    "\n",
    "\\\n",
    "\\",
    "//",
    "/",
    "*",
    " * = a\n",
    "%l",
    "%i",
    "%(v[%i])",
    "+",
    "|",
    ":all",
    "x",
    "! model = symbols\n",
    "! layout[any] = types\n",
    "! $g = us pc\n",
    "include",
    "$",
    "a//b",
    "\u{7f}",
];

/// A file of tokens in no order.
pub fn soup(rng: &mut Prng) -> Vec<u8> {
    let mut rules = String::new();
    if rng.chance(50) {
        rules += "! layout[any] option = symbols\n";
    }
    for _ in 0..rng.below(30) {
        rules += rng.pick(TOKENS);
    }
    rules.into_bytes()
}
