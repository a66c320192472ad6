//! One case: bundle, path texts, profile and room; and its escaped form, as in
//! the vectors.

use crate::library::LANDED;
use crate::second::bundle::{pack, unpack};
use crate::second::{self, Answer, Requests};

#[derive(Clone, Debug, Default, PartialEq, Eq)]
pub struct Case {
    /// Bundle, home, extra, system, model, layouts, variants and options.
    pub inputs: [Vec<u8>; 8],
    pub room: usize,
}

/// The inputs by name.
pub const BUNDLE: usize = 0;
pub const MODEL: usize = 4;
pub const OPTIONS: usize = 7;

/// The bundle of one unnamed file.
pub fn lone(rules: &[u8]) -> Vec<u8> {
    pack(&[(b"", rules)])
}

impl Case {
    /// One unnamed file and empty path texts.
    pub fn new(rules: &[u8], profile: [&[u8]; 4], room: usize) -> Case {
        Case::bundled(lone(rules), [b"", b"", b""], profile, room)
    }

    pub fn text(rules: &str, profile: [&str; 4], room: usize) -> Case {
        Case::new(rules.as_bytes(), profile.map(str::as_bytes), room)
    }

    pub fn bundled(bundle: Vec<u8>, paths: [&[u8]; 3], profile: [&[u8]; 4], room: usize) -> Case {
        let texts = paths.iter().chain(&profile).map(|text| text.to_vec());
        let mut inputs: [Vec<u8>; 8] = Default::default();
        for (input, text) in inputs.iter_mut().zip([bundle].into_iter().chain(texts)) {
            *input = text;
        }
        Case { inputs, room }
    }

    pub fn with_room(&self, room: usize) -> Case {
        Case {
            room,
            ..self.clone()
        }
    }

    pub fn paths(&self) -> [&[u8]; 3] {
        std::array::from_fn(|i| self.inputs[1 + i].as_slice())
    }

    pub fn profile(&self) -> [&[u8]; 4] {
        std::array::from_fn(|i| self.inputs[MODEL + i].as_slice())
    }

    /// The second resolver's answer under the requests that have landed.
    pub fn second(&self) -> Answer {
        self.second_under(LANDED)
    }

    pub fn second_under(&self, requests: Requests) -> Answer {
        let bundle = &self.inputs[BUNDLE];
        second::resolve(bundle, self.paths(), self.profile(), self.room, requests)
    }

    /// The inputs with the bundle's names and files apart, if it is a bundle.
    pub fn parts(&self) -> Vec<Vec<u8>> {
        let mut parts = self.inputs[1..].to_vec();
        match unpack(&self.inputs[BUNDLE]) {
            Some(files) => {
                let files = files.into_iter().flat_map(|(name, bytes)| [name, bytes]);
                parts.extend(files.map(<[u8]>::to_vec));
            }
            None => parts.push(self.inputs[BUNDLE].clone()),
        }
        parts
    }

    /// The case that has these parts.
    pub fn of_parts(parts: &[Vec<u8>], room: usize) -> Case {
        let (texts, files) = parts.split_at(7);
        let bundle = match files {
            [broken] => broken.clone(),
            _ => {
                let files: Vec<_> = files.chunks(2).map(|file| (&file[0], &file[1])).collect();
                pack(&files)
            }
        };
        let texts: [&[u8]; 7] = std::array::from_fn(|i| texts[i].as_slice());
        let [home, extra, system, model, layouts, variants, options] = texts;
        let profile = [model, layouts, variants, options];
        Case::bundled(bundle, [home, extra, system], profile, room)
    }

    /// The case's nine fields in the escaped form.
    pub fn row(&self) -> String {
        let mut row = String::new();
        for input in &self.inputs {
            row += &escape(input);
            row += "\t";
        }
        row + &self.room.to_string()
    }
}

/// An answer's thirteen fields in the escaped form.
pub fn answer_row(answer: &Answer) -> String {
    let (file, line) = (answer.place >> 32, answer.place & 0xffff_ffff);
    let mut row = format!("{}\t{file}\t{line}", answer.number);
    for text in &answer.texts {
        row += "\t";
        row += &escape(text);
    }
    row
}

pub fn escape(bytes: &[u8]) -> String {
    let mut text = String::new();
    for &byte in bytes {
        if (0x20..=0x7e).contains(&byte) && byte != b'\\' {
            text.push(char::from(byte));
        } else {
            text += &format!("\\x{byte:02x}");
        }
    }
    text
}

pub fn unescape(text: &[u8]) -> Option<Vec<u8>> {
    let mut bytes = Vec::new();
    let mut rest = text;
    while let [first, after @ ..] = rest {
        if *first != b'\\' {
            bytes.push(*first);
            rest = after;
            continue;
        }
        let digits = std::str::from_utf8(after.strip_prefix(b"x")?.get(..2)?).ok()?;
        bytes.push(u8::from_str_radix(digits, 16).ok()?);
        rest = &after[3..];
    }
    Some(bytes)
}

pub fn number(field: &[u8]) -> Option<u64> {
    std::str::from_utf8(field).ok()?.parse().ok()
}
