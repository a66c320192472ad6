//! Right-hand values: percent items and `:all`.

use std::collections::HashMap;
use std::sync::OnceLock;

use super::{Bytes, Profile, MAX_LAYOUTS};

#[derive(Clone, Copy, PartialEq, Eq)]
enum At {
    Alone,
    Number(usize),
    Matched,
}

/// A percent item: its letter, its index, and what stands around its value.
#[derive(Clone, Copy)]
pub struct Item {
    letter: u8,
    at: At,
    before: &'static str,
    after: &'static str,
}

pub enum Part {
    Plain(u8),
    Item(Item),
}

pub type Value = Vec<Part>;

/// Every percent item by its spelling after the percent sign.
fn spellings() -> &'static HashMap<Bytes, Item> {
    static TABLE: OnceLock<HashMap<Bytes, Item>> = OnceLock::new();
    TABLE.get_or_init(|| {
        let around = [
            ("", ""),
            ("+", ""),
            ("|", ""),
            ("-", ""),
            ("_", ""),
            ("(", ")"),
        ];
        let mut table = HashMap::new();
        let mut add =
            |letter: char, index: &str, at: At, (before, after): (&'static str, &'static str)| {
                let item = Item {
                    letter: letter as u8,
                    at,
                    before,
                    after,
                };
                table.insert(format!("{before}{letter}{index}{after}").into_bytes(), item);
            };
        add('i', "", At::Matched, ("", ""));
        for pair in around {
            add('m', "", At::Alone, pair);
            for letter in ['l', 'v'] {
                add(letter, "", At::Alone, pair);
                add(letter, "[%i]", At::Matched, pair);
                for k in 1..=MAX_LAYOUTS {
                    add(letter, &format!("[{k}]"), At::Number(k), pair);
                }
            }
        }
        table
    })
}

/// None where a percent item is malformed.
pub fn read_value(word: &[u8], index_word: bool) -> Option<Value> {
    let mut value = Value::new();
    let mut at = 0;
    while at < word.len() {
        if word[at] != b'%' {
            value.push(Part::Plain(word[at]));
            at += 1;
            continue;
        }
        let (length, item) = longest_item(&word[at + 1..])?;
        if item.at == At::Matched && !index_word {
            return None;
        }
        at += 1 + length;
        let open = item.at == At::Alone && item.letter != b'm' && item.after.is_empty();
        if open && word.get(at) == Some(&b'[') {
            return None;
        }
        value.push(Part::Item(item));
    }
    Some(value)
}

fn longest_item(rest: &[u8]) -> Option<(usize, Item)> {
    let table = spellings();
    (1..=rest.len().min(8))
        .rev()
        .find_map(|length| table.get(&rest[..length]).map(|item| (length, *item)))
}

/// The value's text for a profile and the matched layout.
pub fn expand(value: &Value, profile: &Profile, matched: usize) -> Bytes {
    let mut text = Bytes::new();
    for part in value {
        match part {
            Part::Plain(byte) => text.push(*byte),
            Part::Item(item) => {
                let found = item_value(item, profile, matched);
                if !found.is_empty() {
                    text.extend(item.before.bytes());
                    text.extend(found);
                    text.extend(item.after.bytes());
                }
            }
        }
    }
    copy_to_all(&text, profile.layouts.len())
}

fn item_value(item: &Item, profile: &Profile, matched: usize) -> Bytes {
    let values = match item.letter {
        b'm' => return profile.model.clone(),
        b'i' => return matched.to_string().into_bytes(),
        b'l' => &profile.layouts,
        _ => &profile.variants,
    };
    let count = values.len();
    match item.at {
        At::Alone if count == 1 => values[0].clone(),
        At::Number(k) if count > 1 && k <= count => values[k - 1].clone(),
        At::Matched => values[matched - 1].clone(),
        _ => Bytes::new(),
    }
}

/// Cuts the text before every sign and writes out each piece with `:all`.
fn copy_to_all(text: &[u8], count: usize) -> Bytes {
    let sign = |b: &u8| matches!(b, b'+' | b'|');
    let mut pieces: Vec<Bytes> = vec![Bytes::new()];
    for byte in text {
        if sign(byte) {
            pieces.push(Bytes::new());
        }
        pieces.last_mut().expect("a piece").push(*byte);
    }
    let mut all = Bytes::new();
    for piece in pieces {
        let Some(stem) = piece.strip_suffix(b":all") else {
            all.extend(piece);
            continue;
        };
        for k in 1..=count {
            if k > 1 && !stem.first().is_some_and(sign) {
                all.push(b'+');
            }
            all.extend(stem);
            all.extend([b':', b'0' + k as u8]);
        }
    }
    all
}
