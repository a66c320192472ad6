//! Desk cards, from document 02, #102, and written apart from the library:
//! a card is put together from its sections and taken apart with a cursor.

use super::{profile, Bytes};

/// The longest text that a two-byte length has room for.
pub const MAX_SECTION: usize = 65_535;
pub const SECTIONS: usize = 14;

/// A refusal's number and place.
pub type Refused = (u64, u64);

fn limits(texts: [&[u8]; 4]) -> Result<(), Refused> {
    match profile(texts) {
        Ok(_) => Ok(()),
        Err(refusal) => Err((refusal.number, refusal.place)),
    }
}

/// The ten texts of these lengths, from the start on without gaps.
fn cut<'a>(mut texts: &'a [u8], lengths: &[u32; 10]) -> Option<Vec<&'a [u8]>> {
    let mut parts = Vec::new();
    for &length in lengths {
        let length = length as usize;
        if length > MAX_SECTION || length > texts.len() {
            return None;
        }
        let (part, rest) = texts.split_at(length);
        parts.push(part);
        texts = rest;
    }
    Some(parts)
}

/// The bytes of a card, or the refusal. No lengths stand for a sheet that is
/// too short.
pub fn write(
    texts: [&[u8]; 4],
    lent: &[u8],
    lengths: Option<&[u32; 10]>,
    room: usize,
) -> Result<Bytes, Refused> {
    limits(texts)?;
    let parts = lengths.and_then(|l| cut(lent, l)).ok_or((11, 0))?;
    let mut card = Bytes::new();
    for section in texts.iter().copied().chain(parts) {
        card.extend((section.len() as u16).to_le_bytes());
        card.extend(section);
    }
    if card.len() > room {
        return Err((11, 0));
    }
    Ok(card)
}

/// The sections that a card is, if it is nothing else.
fn take_apart(mut card: &[u8]) -> Option<Vec<Bytes>> {
    let mut sections = Vec::new();
    while sections.len() < SECTIONS {
        let (length, rest) = card.split_first_chunk::<2>()?;
        let length = usize::from(u16::from_le_bytes(*length));
        sections.push(rest.get(..length)?.to_vec());
        card = &rest[length..];
    }
    card.is_empty().then_some(sections)
}

/// The texts of a card, or the refusal's number.
pub fn read(card: &[u8], room: usize, sheet: usize) -> Result<Vec<Bytes>, u64> {
    let sections = take_apart(card).ok_or(16_u64)?;
    let texts = [&sections[0], &sections[1], &sections[2], &sections[3]];
    limits(texts.map(Vec::as_slice)).map_err(|_| 16_u64)?;
    let total: usize = sections.iter().map(Vec::len).sum();
    if total > room || sheet < 56 {
        return Err(11);
    }
    Ok(sections)
}
