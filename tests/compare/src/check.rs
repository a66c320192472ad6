//! Compares the library's answer to one case with an expected answer: number,
//! place, ten lengths, texts, bytes that must stay, the component entry, and the
//! entry that checks a bundle without a profile.

use std::collections::HashSet;
use std::ops::Range;

use crate::case::{Case, BUNDLE};
use crate::library::{self, Number, LANDED};
use crate::second::{self, stretch, Answer};

/// Bytes before and behind each lent buffer that belong to no one.
const GUARD: usize = 24;

/// A buffer filled with a pattern, of which the middle is lent.
#[derive(Clone)]
pub struct Lent {
    bytes: Vec<u8>,
}

impl Lent {
    pub fn new(length: usize, pattern: u8) -> Lent {
        let fill = |i: usize| (i as u8).wrapping_mul(29).wrapping_add(7) ^ pattern;
        Lent {
            bytes: (0..length + 2 * GUARD).map(fill).collect(),
        }
    }

    fn range(&self) -> Range<usize> {
        GUARD..self.bytes.len() - GUARD
    }

    pub fn lent(&self) -> &[u8] {
        &self.bytes[self.range()]
    }

    pub fn lend(&mut self) -> &mut [u8] {
        let range = self.range();
        &mut self.bytes[range]
    }

    /// The buffer with these first bytes put into its lent part.
    pub fn put(&self, first: &[u8]) -> Lent {
        let mut put = self.clone();
        put.lend()[..first.len()].copy_from_slice(first);
        put
    }

    /// The first lent position that differs; positions before or behind the
    /// lent part count on in both directions.
    pub fn difference(&self, other: &Lent) -> Option<isize> {
        if self.bytes == other.bytes {
            return None;
        }
        let at = (0..self.bytes.len()).find(|&i| self.bytes[i] != other.bytes[i]);
        at.map(|i| i as isize - GUARD as isize)
    }
}

/// What a call gave and left.
pub struct Seen {
    number: Number,
    texts: Lent,
    sheet: Lent,
    inputs_stayed: bool,
}

/// The first inputs side by side, some bytes apart, and where each stands.
fn lay_out<const N: usize>(case: &Case, pattern: u8) -> (Vec<u8>, [Range<usize>; N]) {
    let mut inputs = vec![pattern; GUARD];
    let ranges = std::array::from_fn(|i| {
        let start = inputs.len();
        inputs.extend(&case.inputs[i]);
        let end = inputs.len();
        inputs.extend([pattern; 3]);
        start..end
    });
    (inputs, ranges)
}

/// Calls the library with buffers filled with a pattern.
pub fn call(case: &Case, sheet_length: usize, pattern: u8) -> Seen {
    let (mut inputs, ranges) = lay_out(case, pattern);
    let before = inputs.clone();
    let mut texts = Lent::new(case.room, pattern);
    let mut sheet = Lent::new(sheet_length, !pattern);
    let number = library::resolve(&mut inputs, &ranges, texts.lend(), sheet.lend());
    Seen {
        number,
        texts,
        sheet,
        inputs_stayed: inputs == before,
    }
}

impl Seen {
    /// Whether two calls gave and left the same.
    pub fn same(&self, other: &Seen) -> bool {
        let difference = self.texts.difference(&other.texts);
        let difference = difference.or(self.sheet.difference(&other.sheet));
        self.number == other.number && difference.is_none()
    }

    /// The answer as far as it can be read.
    pub fn answer(&self) -> Answer {
        let mut answer = Answer {
            number: self.number.0,
            place: self.number.1,
            ..Answer::default()
        };
        if answer.number != 0 || self.sheet.lent().len() < 40 {
            return answer;
        }
        let mut rest = self.texts.lent();
        for (i, text) in answer.texts.iter_mut().enumerate() {
            let four = &self.sheet.lent()[4 * i..4 * i + 4];
            let length = u32::from_le_bytes([four[0], four[1], four[2], four[3]]) as usize;
            let (first, after) = rest.split_at(length.min(rest.len()));
            *text = first.to_vec();
            rest = after;
        }
        answer
    }
}

fn sheet_bytes(lengths: &[u32; 10]) -> Vec<u8> {
    lengths.iter().flat_map(|l| l.to_le_bytes()).collect()
}

fn lengths(answer: &Answer) -> [u32; 10] {
    std::array::from_fn(|i| answer.texts[i].len() as u32)
}

/// Everything in which the library differs from the expected answer.
pub fn complaints(case: &Case, expected: &Answer) -> Vec<String> {
    let mark = case.inputs.iter().map(Vec::len).sum::<usize>() + case.room;
    let sheet_length = [40, 41, 47, 64][mark % 4];
    let mut list = Vec::new();
    for pattern in [mark as u8, !(mark as u8)] {
        compare_call(case, expected, sheet_length, pattern, &mut list);
    }
    short_sheet(case, expected, mark % 40, &mut list);
    if list.is_empty() {
        compare_components(case, expected, mark, &mut list);
    }
    // Every bundle of several files is checked by itself, and every fourth other.
    if LANDED.bundles && (mark % 4 == 0 || !case.inputs[BUNDLE].starts_with(&[1, 0])) {
        compare_check(case, mark, &mut list);
    }
    let mut seen = HashSet::new();
    list.retain(|complaint| seen.insert(complaint.clone()));
    list
}

fn compare_call(
    case: &Case,
    expected: &Answer,
    sheet_length: usize,
    pattern: u8,
    list: &mut Vec<String>,
) {
    let seen = call(case, sheet_length, pattern);
    let wanted = (expected.number, expected.place);
    if seen.number != wanted {
        list.push(format!(
            "number and place {:?}, not {wanted:?}",
            seen.number
        ));
    }
    let mut texts = Lent::new(case.room, pattern);
    let mut sheet = Lent::new(sheet_length, !pattern);
    if expected.number == 0 && sheet_length >= 40 {
        texts = texts.put(&expected.texts.concat());
        sheet = sheet.put(&sheet_bytes(&lengths(expected)));
    }
    if let Some(at) = seen.texts.difference(&texts) {
        list.push(format!("byte {at} of the texts differs"));
    }
    if let Some(at) = seen.sheet.difference(&sheet) {
        list.push(format!("byte {at} of the length sheet differs"));
    }
    if !seen.inputs_stayed {
        list.push("an input was changed".into());
    }
}

/// A length sheet under 40 bytes is 11, last.
fn short_sheet(case: &Case, expected: &Answer, length: usize, list: &mut Vec<String>) {
    let mut refused = Answer {
        number: 11,
        ..Answer::default()
    };
    if expected.number != 0 {
        refused = expected.clone();
    }
    let before = list.len();
    compare_call(case, &refused, length, 0x5a, list);
    for complaint in &mut list[before..] {
        *complaint += &format!(" (length sheet of {length} bytes)");
    }
}

/// What a check answers: number, place, and what is written to the lent name.
pub type Checked = (u64, u64, Vec<u8>);

/// The bundle without the profile, with several rooms around the name's length.
fn compare_check(case: &Case, mark: usize, list: &mut Vec<String>) {
    let bundle = &case.inputs[BUNDLE];
    let whole = second::check(bundle, case.paths(), usize::MAX, LANDED);
    let length = whole.2.len();
    let mut rooms = vec![mark % 300];
    if whole.0 == 13 {
        rooms.extend([length.saturating_sub(1), length, length + 1]);
    }
    for room in rooms {
        let expected = if length > room {
            (11, 0, Vec::new())
        } else {
            whole.clone()
        };
        list.extend(check_complaints(case, room, &expected));
    }
}

/// In what the check of a bundle differs from the expected answer.
pub fn check_complaints(case: &Case, room: usize, expected: &Checked) -> Vec<String> {
    let mut list = Vec::new();
    for pattern in [0x00, 0xff] {
        let (mut inputs, ranges) = lay_out(case, pattern);
        let before = inputs.clone();
        let mut name = Lent::new(room, pattern);
        let seen = library::check(&mut inputs, &ranges, name.lend());
        let wanted = (expected.0, expected.1);
        if seen != wanted {
            list.push(format!(
                "check, name of {room} bytes: {seen:?}, not {wanted:?}"
            ));
        }
        let left = Lent::new(room, pattern).put(&expected.2);
        if let Some(at) = name.difference(&left) {
            list.push(format!(
                "check, name of {room} bytes: byte {at} of it differs"
            ));
        }
        if inputs != before {
            list.push("check changed an input".into());
        }
    }
    list
}

fn compare_components(case: &Case, expected: &Answer, mark: usize, list: &mut Vec<String>) {
    let total = expected.total();
    let right = lengths(expected);
    let mut texts = Lent::new(case.room, 0x33);
    let spare = (case.room - total) as u32;
    one_sheet(&mut texts, case.room, &right, 40 + mark % 9, list);
    one_sheet(&mut texts, total, &right, 40, list);
    one_sheet(&mut texts, case.room, &right, mark % 40, list);
    one_sheet(&mut texts, case.room, &right, 39, list);
    if total > 0 {
        one_sheet(&mut texts, total - 1, &right, 40, list);
    }
    for wrong in wrong_lengths(&right, spare, mark) {
        one_sheet(&mut texts, case.room, &wrong, 40, list);
    }
    if texts.difference(&Lent::new(case.room, 0x33)).is_some() {
        list.push("the component entry changed the texts".into());
    }
}

/// Lengths that the library did not write: some fit the buffer, some do not,
/// and some have a sum that fits only if its upper half is lost.
fn wrong_lengths(right: &[u32; 10], spare: u32, mark: usize) -> Vec<[u32; 10]> {
    let raised = |by: u32| {
        let mut lengths = *right;
        lengths[mark % 10] += by;
        lengths
    };
    let mut turned = *right;
    turned.rotate_left(1 + mark % 9);
    let mut lost = *right;
    for at in [mark % 10, (mark + 1 + mark / 10 % 9) % 10] {
        lost[at] = lost[at].wrapping_add(1 << 31);
    }
    vec![
        raised(spare),
        raised(spare + 1),
        turned,
        lost,
        [u32::MAX; 10],
        [0; 10],
    ]
}

fn one_sheet(
    texts: &mut Lent,
    room: usize,
    lengths: &[u32; 10],
    sheet_length: usize,
    list: &mut Vec<String>,
) {
    let mut sheet = Lent::new(sheet_length, 0x44);
    let written = &sheet_bytes(lengths)[..sheet_length.min(40)];
    sheet = sheet.put(written);
    let before = sheet.clone();
    for component in [0, 1, 2, 3, 4, 5, 6, 255, 256, 1 << 32, 1 << 63, u64::MAX] {
        let seen = library::component(&mut texts.lend()[..room], sheet.lend(), component);
        let wanted = if sheet_length < 40 {
            (0, 0)
        } else {
            stretch(lengths, room, component)
        };
        if seen != wanted {
            list.push(format!(
                "component {component} of lengths {lengths:?} in {room} bytes, \
                 length sheet of {sheet_length}: {seen:?}, not {wanted:?}"
            ));
        }
    }
    if sheet.difference(&before).is_some() {
        list.push("the component entry changed the length sheet".into());
    }
}
