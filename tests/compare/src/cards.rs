//! Desk cards: the library's two entries, a second implementation and the
//! vectors of request 102 are held against each other.

use std::collections::BTreeMap;

use crate::case::{escape, unescape};
use crate::check::Lent;
use crate::library;
use crate::prng::Prng;
use crate::run::spread;
use crate::second::cards::{self as second, Refused, MAX_SECTION, SECTIONS};

const VECTORS: &[u8] = include_bytes!("../vectors/102.tsv");

type Bytes = Vec<u8>;

/// What is lent to a writing.
#[derive(Clone)]
struct Writing {
    profile: [Bytes; 4],
    texts: Bytes,
    sheet: Bytes,
    room: usize,
}

/// What is lent to a reading.
#[derive(Clone)]
struct Reading {
    card: Bytes,
    room: usize,
    sheet: usize,
}

#[derive(Default)]
pub struct Tally {
    pub cases: u64,
    pub answers: BTreeMap<u64, u64>,
    failures: Vec<String>,
}

impl Tally {
    fn note(&mut self, number: u64, complaint: Option<String>) {
        self.cases += 1;
        *self.answers.entry(number).or_default() += 1;
        self.failures.extend(complaint);
    }

    fn add(&mut self, other: Tally) {
        self.cases += other.cases;
        for (number, count) in other.answers {
            *self.answers.entry(number).or_default() += count;
        }
        self.failures.extend(other.failures);
    }
}

fn little_endian(lengths: &[u32]) -> Bytes {
    lengths.iter().flat_map(|l| l.to_le_bytes()).collect()
}

fn lengths_in(sheet: &[u8]) -> Option<[u32; 10]> {
    let word = |i: usize| u32::from_le_bytes([0, 1, 2, 3].map(|k| sheet[4 * i + k]));
    (sheet.len() >= 40).then(|| std::array::from_fn(word))
}

impl Writing {
    fn of(profile: [&[u8]; 4], texts: &[u8], lengths: &[u32], room: usize) -> Writing {
        Writing {
            profile: profile.map(<[u8]>::to_vec),
            texts: texts.to_vec(),
            sheet: little_endian(lengths),
            room,
        }
    }

    fn profile(&self) -> [&[u8]; 4] {
        std::array::from_fn(|i| self.profile[i].as_slice())
    }

    fn second(&self) -> Result<Bytes, Refused> {
        let lengths = lengths_in(&self.sheet);
        second::write(self.profile(), &self.texts, lengths.as_ref(), self.room)
    }

    fn row(&self) -> String {
        let profile = self.profile.iter().map(|t| escape(t));
        let profile: Vec<String> = profile.collect();
        let (texts, sheet) = (escape(&self.texts), escape(&self.sheet));
        let row = format!("{}\t{texts}\t{sheet}\t{}", profile.join("\t"), self.room);
        shortened("write", &row)
    }

    /// What the library does otherwise than expected, under two patterns.
    fn complaint(&self, expected: &Result<Bytes, Refused>) -> Option<String> {
        [0x00, 0xff].iter().find_map(|&pattern| {
            let before = Lent::new(self.room, pattern);
            let mut card = before.clone();
            let returned =
                library::card_write(self.profile(), &self.texts, &self.sheet, card.lend());
            let (want, left) = match expected {
                Ok(bytes) => (bytes.len() as u64, before.put(bytes)),
                Err((number, place)) => ((number << 48) + place, before),
            };
            if returned != want {
                return Some(format!("{}: returned {returned}, not {want}", self.row()));
            }
            let at = card.difference(&left)?;
            Some(format!("{}: the card differs at {at}", self.row()))
        })
    }

    fn compare(&self, tally: &mut Tally) -> Result<Bytes, Refused> {
        let expected = self.second();
        let number = expected.as_ref().map_or_else(|refused| refused.0, |_| 0);
        tally.note(number, self.complaint(&expected));
        expected
    }
}

impl Reading {
    fn of(card: &[u8], room: usize, sheet: usize) -> Reading {
        let card = card.to_vec();
        Reading { card, room, sheet }
    }

    fn second(&self) -> Result<Vec<Bytes>, u64> {
        second::read(&self.card, self.room, self.sheet)
    }

    fn row(&self) -> String {
        let row = format!("{}\t{}\t{}", escape(&self.card), self.room, self.sheet);
        shortened("read", &row)
    }

    fn complaint(&self, expected: &Result<Vec<Bytes>, u64>) -> Option<String> {
        [0x00, 0xff].iter().find_map(|&pattern| {
            let before = (
                Lent::new(self.room, pattern),
                Lent::new(self.sheet, !pattern),
            );
            let (mut texts, mut sheet) = before.clone();
            let returned = library::card_read(&self.card, texts.lend(), sheet.lend());
            let (want, left) = match expected {
                Ok(parts) => {
                    let lengths: Vec<u32> = parts.iter().map(|p| p.len() as u32).collect();
                    let lengths = little_endian(&lengths);
                    (0, (before.0.put(&parts.concat()), before.1.put(&lengths)))
                }
                Err(number) => (number << 48, before),
            };
            if returned != want {
                return Some(format!("{}: returned {returned}, not {want}", self.row()));
            }
            let texts = texts.difference(&left.0).map(|at| ("texts", at));
            let (which, at) = texts.or(sheet.difference(&left.1).map(|at| ("sheet", at)))?;
            Some(format!("{}: the {which} differ at {at}", self.row()))
        })
    }

    fn compare(&self, tally: &mut Tally) -> Result<Vec<Bytes>, u64> {
        let expected = self.second();
        let number = expected.as_ref().map_or_else(|number| *number, |_| 0);
        tally.note(number, self.complaint(&expected));
        expected
    }
}

fn shortened(kind: &str, row: &str) -> String {
    let most = row.len().min(600);
    format!("{kind}\t{}", &row[..most])
}

// The vectors.

fn numbers<const N: usize>(field: &[u8]) -> Option<[u32; N]> {
    let text = std::str::from_utf8(field).ok()?;
    let parsed: Result<Vec<u32>, _> = text.split(' ').map(str::parse).collect();
    parsed.ok()?.try_into().ok()
}

fn vector(line: &[u8], tally: &mut Tally) -> Option<()> {
    let fields: Vec<&[u8]> = line.split(|&b| b == b'\t').collect();
    let number = |field: &[u8]| std::str::from_utf8(field).ok()?.parse::<u64>().ok();
    match fields.as_slice() {
        [b"write", profile @ .., texts, lengths, room, refused, place, card]
            if profile.len() == 4 =>
        {
            let profile: Vec<Bytes> = profile.iter().map(|t| unescape(t)).collect::<Option<_>>()?;
            let case = Writing {
                profile: profile.try_into().ok()?,
                texts: unescape(texts)?,
                sheet: little_endian(&numbers::<10>(lengths)?),
                room: number(room)? as usize,
            };
            let expected = match number(refused)? {
                0 => Ok(unescape(card)?),
                refused => Err((refused, number(place)?)),
            };
            let same = case.second() == expected;
            let odd = (!same).then(|| format!("{}: the second writes otherwise", case.row()));
            tally.note(number(refused)?, odd.or(case.complaint(&expected)));
        }
        [b"read", card, room, refused, lengths, texts] => {
            let case = Reading::of(&unescape(card)?, number(room)? as usize, 56);
            let expected = match number(refused)? {
                0 => {
                    let mut rest = unescape(texts)?;
                    let mut parts = Vec::new();
                    for length in numbers::<SECTIONS>(lengths)? {
                        let behind = rest.split_off((length as usize).min(rest.len()));
                        parts.push(std::mem::replace(&mut rest, behind));
                    }
                    Ok(parts)
                }
                refused => Err(refused),
            };
            let same = case.second() == expected;
            let odd = (!same).then(|| format!("{}: the second reads otherwise", case.row()));
            tally.note(number(refused)?, odd.or(case.complaint(&expected)));
        }
        _ => return None,
    }
    Some(())
}

fn vectors() -> Result<Tally, String> {
    let mut tally = Tally::default();
    let lines = VECTORS.strip_suffix(b"\n").unwrap_or(VECTORS);
    for (i, line) in lines.split(|&b| b == b'\n').enumerate() {
        vector(line, &mut tally).ok_or(format!("102.tsv: bad line {}", i + 1))?;
    }
    Ok(tally)
}

// Cases made for their edges.

const PROFILE: [&[u8]; 4] = [b"pc105", b"us,fr", b",bepo", b"ctrl:nocaps"];

fn card(profile: [&[u8]; 4], parts: &[&[u8]]) -> Bytes {
    let mut card = Bytes::new();
    for section in profile.iter().chain(parts) {
        card.extend((section.len() as u16).to_le_bytes());
        card.extend(*section);
    }
    card
}

fn sample() -> Bytes {
    let parts: [&[u8]; 10] = [
        b"evdev",
        b"",
        b"",
        b"|caps",
        b"\x00\xff\n",
        b"",
        b"pc+us",
        b"+fr(bepo):2",
        b"",
        b"x",
    ];
    card(PROFILE, &parts)
}

/// Texts, lengths and buffers at and around what fits.
fn written_edges(tally: &mut Tally) {
    let texts: Bytes = (0..70_000_u32).map(|i| (i % 251) as u8).collect();
    let sizes = [
        0,
        1,
        255,
        256,
        257,
        65_534,
        65_535,
        65_536,
        65_537,
        1 << 31,
        u32::MAX,
    ];
    for at in 0..10 {
        for size in sizes {
            let mut lengths = [0; 10];
            lengths[at] = size;
            for lent in [0, 1, size as usize, (size as usize).wrapping_sub(1), 70_000] {
                let texts = &texts[..lent.min(texts.len())];
                let need = 28 + PROFILE.iter().map(|t| t.len()).sum::<usize>() + size as usize;
                for room in [0, 27, need.wrapping_sub(1), need, need + 1, 70_100] {
                    Writing::of(PROFILE, texts, &lengths, room.min(140_000))
                        .compare(tally)
                        .ok();
                }
            }
            let other = (at + 3) % 10;
            lengths[other] = size;
            Writing::of(PROFILE, &texts, &lengths, 140_000)
                .compare(tally)
                .ok();
        }
    }
    // Ten texts of the longest length, and one byte too few for them.
    let long = vec![0xA5; 10 * MAX_SECTION];
    for lent in [10 * MAX_SECTION, 10 * MAX_SECTION - 1] {
        for room in [659_474, 655_378 + 23, 655_378 + 22] {
            Writing::of(PROFILE, &long[..lent], &[MAX_SECTION as u32; 10], room)
                .compare(tally)
                .ok();
        }
    }
    for sheet in [0, 1, 39, 40, 41, 100] {
        let mut case = Writing::of(PROFILE, b"abcdefghij", &[1; 10], 100);
        case.sheet.resize(sheet, 0);
        case.compare(tally).ok();
        case.profile[3] = b"a b".to_vec();
        case.compare(tally).ok();
    }
}

/// Profiles at and beyond the limits, written and in a card.
fn limits(tally: &mut Tally) {
    let repeat = |text: &[u8], n: usize| text.repeat(n);
    let mut odd: Vec<(usize, Bytes)> = vec![
        (1, b"a,b,c,d".to_vec()),
        (1, b"a,b,c,d,e".to_vec()),
        (1, b",,,".to_vec()),
        (1, b",,,,".to_vec()),
        (2, b",".to_vec()),
        (2, b",,".to_vec()),
        (3, repeat(b"o,", 64)),
        (3, repeat(b"o,", 65)),
        (3, repeat(b",", 1024)),
        (3, repeat(b",", 1025)),
    ];
    for at in 0..4 {
        for text in [
            repeat(b"x", 64),
            repeat(b"x", 65),
            repeat(b"x", 1024),
            repeat(b"x,", 512),
        ] {
            odd.push((at, text));
        }
        for byte in [0x00, 0x20, 0x21, 0x2c, 0x7e, 0x7f, 0x80, 0xff] {
            odd.push((at, vec![byte]));
        }
    }
    for (at, text) in odd {
        let mut profile = PROFILE;
        profile[at] = &text;
        Writing::of(profile, b"", &[0; 10], 4_000)
            .compare(tally)
            .ok();
        Reading::of(&card(profile, &[b"".as_slice(); 10]), 4_000, 56)
            .compare(tally)
            .ok();
        let mut both = profile;
        both[3] = b"\x1b";
        both[1] = b"a,b,c,d,e";
        Writing::of(both, b"", &[0; 10], 4_000).compare(tally).ok();
    }
}

/// A card cut at every place, with bytes behind it, with every byte changed,
/// and into every room.
fn read_edges(tally: &mut Tally) {
    let whole = sample();
    let total = whole.len() - 2 * SECTIONS;
    for end in 0..=whole.len() {
        Reading::of(&whole[..end], 100, 56).compare(tally).ok();
    }
    for more in 1..40 {
        for byte in [0, 1, 0xff] {
            let mut longer = whole.clone();
            longer.extend(vec![byte; more]);
            Reading::of(&longer, 200, 56).compare(tally).ok();
        }
    }
    for at in 0..whole.len() {
        for byte in 0..=255 {
            let mut changed = whole.clone();
            changed[at] = byte;
            Reading::of(&changed, 100, 56).compare(tally).ok();
        }
    }
    for sheet in [0, 1, 39, 40, 55, 56, 57, 100] {
        for room in [0, total - 1, total, total + 1, 300] {
            Reading::of(&whole, room, sheet).compare(tally).ok();
            Reading::of(&whole[1..], room, sheet).compare(tally).ok();
        }
    }
    // Long sections, and lengths that say more or less than is there.
    let long = vec![b'+'; MAX_SECTION];
    for at in 0..10 {
        let mut parts = [b"k".as_slice(); 10];
        parts[at] = &long;
        let whole = card(PROFILE, &parts);
        for end in [whole.len() - 1, whole.len()] {
            for room in [whole.len() - 29, whole.len() - 28, 70_000] {
                Reading::of(&whole[..end], room, 56).compare(tally).ok();
            }
        }
    }
    let most = card(PROFILE, &[long.as_slice(); 10]);
    Reading::of(&most, most.len(), 56).compare(tally).ok();
    Reading::of(&most[..most.len() - 1], most.len(), 56)
        .compare(tally)
        .ok();
    Reading::of(&[0xff; 700], 700, 56).compare(tally).ok();
    Reading::of(&[], 700, 56).compare(tally).ok();
}

// Cases from a seed, and the two promises.

fn text(random: &mut Prng, most: usize, any: bool) -> Bytes {
    let length = random.below(most + 1);
    let byte = |random: &mut Prng| match any {
        true => random.next() as u8,
        false => *random.pick::<u8>(&[&b'a', &b'b', &b',', &b'~', &b'!']),
    };
    (0..length).map(|_| byte(random)).collect()
}

fn generated(seed: u64, index: u64, tally: &mut Tally) {
    let mut random = Prng::new(seed ^ 0xCA2D, index);
    let most = [4, 12, 70][random.below(3)];
    let mut profile: [Bytes; 4] = std::array::from_fn(|_| text(&mut random, most, false));
    if random.chance(70) {
        profile[2] = Bytes::new();
        profile[1].truncate(3);
    }
    if random.chance(5) {
        let at = random.below(4);
        profile[at].push(random.next() as u8);
    }
    let parts: [Bytes; 10] = std::array::from_fn(|_| text(&mut random, 300, true));
    let mut lengths: [u32; 10] = std::array::from_fn(|i| parts[i].len() as u32);
    let mut texts = parts.concat();
    match random.below(8) {
        0 => lengths[random.below(10)] += random.below(3) as u32,
        1 => texts.truncate(texts.len().saturating_sub(random.below(3))),
        2 => texts.extend(text(&mut random, 20, true)),
        _ => (),
    }
    let need = 28 + profile.iter().map(Vec::len).sum::<usize>() + parts.concat().len();
    let room = (need + random.below(5)).saturating_sub(2);
    let borrowed: [&[u8]; 4] = std::array::from_fn(|i| profile[i].as_slice());
    let case = Writing::of(borrowed, &texts, &lengths, room);
    if let Ok(card) = case.compare(tally) {
        round_trip(&case, &card, tally);
    }
    // A card that may be broken; where it is accepted, it is written again.
    let mut bytes = card_of(&profile, &parts);
    for _ in 0..random.below(3) {
        damage(&mut random, &mut bytes);
    }
    let room = (need + random.below(5)).saturating_sub(30);
    let case = Reading::of(&bytes, room, 54 + random.below(5));
    if let Ok(parts) = case.compare(tally) {
        written_again(&bytes, &parts, tally);
    }
}

fn card_of(profile: &[Bytes; 4], parts: &[Bytes; 10]) -> Bytes {
    let profile: [&[u8]; 4] = std::array::from_fn(|i| profile[i].as_slice());
    let parts: [&[u8]; 10] = std::array::from_fn(|i| parts[i].as_slice());
    card(profile, &parts)
}

fn damage(random: &mut Prng, card: &mut Bytes) {
    let at = random.below(card.len().max(1));
    match random.below(5) {
        0 => card.truncate(at),
        1 => card.push(random.next() as u8),
        2 => card.insert(at.min(card.len()), random.next() as u8),
        3 if at < card.len() => {
            card.remove(at);
        }
        _ if at < card.len() => card[at] = random.next() as u8,
        _ => (),
    }
}

/// Reading back gives what was written.
fn round_trip(case: &Writing, card: &[u8], tally: &mut Tally) {
    let total = card.len() - 2 * SECTIONS;
    let back = Reading::of(card, total, 56).compare(tally);
    let sum: usize = lengths_in(&case.sheet).map_or(0, |l| l.iter().sum::<u32>() as usize);
    let lent = [&case.profile.concat(), &case.texts[..sum]].concat();
    let same = back.map(|parts| parts.concat()) == Ok(lent);
    tally.note(
        0,
        (!same).then(|| format!("{}: read back otherwise", case.row())),
    );
}

/// An accepted card is the one that writing gives.
fn written_again(card: &[u8], parts: &[Bytes], tally: &mut Tally) {
    let lengths: Vec<u32> = parts[4..].iter().map(|p| p.len() as u32).collect();
    let profile: [&[u8]; 4] = std::array::from_fn(|i| parts[i].as_slice());
    let case = Writing::of(profile, &parts[4..].concat(), &lengths, card.len());
    let same = case.compare(tally).as_deref() == Ok(card);
    tally.note(
        0,
        (!same).then(|| format!("{}: written otherwise", case.row())),
    );
}

/// All cards. The number of disagreements.
pub fn run(seed: u64, count: u64) -> Result<(Tally, u64), String> {
    let mut all = vectors()?;
    written_edges(&mut all);
    limits(&mut all);
    read_edges(&mut all);
    let work = |index: u64, tally: &mut Tally| generated(seed, index, tally);
    spread(count, &work)
        .into_iter()
        .for_each(|part| all.add(part));
    for failure in all.failures.iter().take(5) {
        println!("compare: cards: {failure}");
    }
    let never: Vec<u64> = [0, 1, 2, 11, 16]
        .into_iter()
        .filter(|n| !all.answers.contains_key(n))
        .collect();
    if !never.is_empty() {
        return Err(format!("cards never answered: {never:?}"));
    }
    let disagreements = all.failures.len() as u64;
    Ok((all, disagreements))
}
