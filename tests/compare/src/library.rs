//! Safe calls of the C library `libxkbrules.a`.

use std::ops::Range;

use crate::second::bundle::unpack;
use crate::second::Requests;

/// The requests of document 02 that the library in hand has. With `bundles` it is
/// called as #101 has it, else as before: with one unnamed file.
pub const LANDED: Requests = Requests {
    bundles: false,
    cr_lf: true,
    order: true,
};

/// The entries as they were before #101.
mod lone {
    extern "C" {
        #[allow(clashing_extern_declarations)]
        pub fn xkbrules_resolve(
            rules: *const u8,
            rules_len: usize,
            model: *const u8,
            model_len: usize,
            layouts: *const u8,
            layouts_len: usize,
            variants: *const u8,
            variants_len: usize,
            options: *const u8,
            options_len: usize,
            texts: *mut u8,
            texts_len: usize,
            sheet: *mut u8,
            sheet_len: usize,
        ) -> u64;
    }
}

extern "C" {
    #[allow(clashing_extern_declarations)]
    fn xkbrules_resolve(
        bundle: *const u8,
        bundle_len: usize,
        home: *const u8,
        home_len: usize,
        extra: *const u8,
        extra_len: usize,
        system: *const u8,
        system_len: usize,
        model: *const u8,
        model_len: usize,
        layouts: *const u8,
        layouts_len: usize,
        variants: *const u8,
        variants_len: usize,
        options: *const u8,
        options_len: usize,
        texts: *mut u8,
        texts_len: usize,
        sheet: *mut u8,
        sheet_len: usize,
    ) -> u64;

    fn xkbrules_check(
        bundle: *const u8,
        bundle_len: usize,
        home: *const u8,
        home_len: usize,
        extra: *const u8,
        extra_len: usize,
        system: *const u8,
        system_len: usize,
        name: *mut u8,
        name_len: usize,
    ) -> u64;

    fn xkbrules_component(
        texts: *const u8,
        texts_len: usize,
        sheet: *const u8,
        sheet_len: usize,
        component: u64,
    ) -> u64;

    fn xkbrules_card_write(
        model: *const u8,
        model_len: usize,
        layouts: *const u8,
        layouts_len: usize,
        variants: *const u8,
        variants_len: usize,
        options: *const u8,
        options_len: usize,
        texts: *const u8,
        texts_len: usize,
        sheet: *const u8,
        sheet_len: usize,
        card: *mut u8,
        card_len: usize,
    ) -> u64;

    fn xkbrules_card_read(
        card: *const u8,
        card_len: usize,
        texts: *mut u8,
        texts_len: usize,
        sheet: *mut u8,
        sheet_len: usize,
    ) -> u64;
}

/// The answer's number and place.
pub type Number = (u64, u64);

/// Whether the library can be asked about this bundle.
pub fn takes(bundle: &[u8]) -> bool {
    let unnamed = |files: Vec<(&[u8], &[u8])>| files.len() == 1 && files[0].0.is_empty();
    LANDED.bundles || unpack(bundle).is_some_and(unnamed)
}

fn number(packed: u64) -> Number {
    (packed >> 48, packed & ((1 << 48) - 1))
}

/// Resolves the eight inputs (bundle, home, extra, system, model, layouts,
/// variants, options) that stand at the given ranges of `inputs`. The inputs are
/// lent mutably so that the caller can see whether they were changed.
pub fn resolve(
    inputs: &mut [u8],
    ranges: &[Range<usize>; 8],
    texts: &mut [u8],
    sheet: &mut [u8],
) -> Number {
    for range in ranges {
        assert!(range.start <= range.end && range.end <= inputs.len());
    }
    if !LANDED.bundles {
        return resolve_lone(inputs, ranges, texts, sheet);
    }
    let start = inputs.as_mut_ptr();
    // SAFETY: each range lies in `inputs`; `texts` and `sheet` are lent with
    // their own lengths, and no two of these overlap.
    number(unsafe {
        let at = |i: usize| start.add(ranges[i].start).cast_const();
        xkbrules_resolve(
            at(0),
            ranges[0].len(),
            at(1),
            ranges[1].len(),
            at(2),
            ranges[2].len(),
            at(3),
            ranges[3].len(),
            at(4),
            ranges[4].len(),
            at(5),
            ranges[5].len(),
            at(6),
            ranges[6].len(),
            at(7),
            ranges[7].len(),
            texts.as_mut_ptr(),
            texts.len(),
            sheet.as_mut_ptr(),
            sheet.len(),
        )
    })
}

/// The same by the entry before #101: the file is what follows the eight bytes of
/// counts, and its lines' places get the file's number.
fn resolve_lone(
    inputs: &mut [u8],
    ranges: &[Range<usize>; 8],
    texts: &mut [u8],
    sheet: &mut [u8],
) -> Number {
    assert!(takes(&inputs[ranges[0].clone()]));
    let rules = ranges[0].start + 8..ranges[0].end;
    let start = inputs.as_mut_ptr();
    // SAFETY: as above.
    let (number, place) = number(unsafe {
        let at = |i: usize| start.add(ranges[i].start).cast_const();
        lone::xkbrules_resolve(
            start.add(rules.start).cast_const(),
            rules.len(),
            at(4),
            ranges[4].len(),
            at(5),
            ranges[5].len(),
            at(6),
            ranges[6].len(),
            at(7),
            ranges[7].len(),
            texts.as_mut_ptr(),
            texts.len(),
            sheet.as_mut_ptr(),
            sheet.len(),
        )
    });
    let in_file = (3..=10).contains(&number);
    (number, place + (u64::from(in_file) << 32))
}

/// Checks the bundle, with home, extra and system, that stand at the given ranges
/// of `inputs`. Lent mutably as above.
pub fn check(inputs: &mut [u8], ranges: &[Range<usize>; 4], name: &mut [u8]) -> Number {
    for range in ranges {
        assert!(range.start <= range.end && range.end <= inputs.len());
    }
    let start = inputs.as_mut_ptr();
    // SAFETY: each range lies in `inputs`; `name` is lent with its own length
    // and overlaps none of them.
    number(unsafe {
        let at = |i: usize| start.add(ranges[i].start).cast_const();
        xkbrules_check(
            at(0),
            ranges[0].len(),
            at(1),
            ranges[1].len(),
            at(2),
            ranges[2].len(),
            at(3),
            ranges[3].len(),
            name.as_mut_ptr(),
            name.len(),
        )
    })
}

/// One component's start and length. Lent mutably as above.
pub fn component(texts: &mut [u8], sheet: &mut [u8], component: u64) -> (u64, u64) {
    // SAFETY: both slices are lent with their own lengths.
    let packed = unsafe {
        xkbrules_component(
            texts.as_mut_ptr().cast_const(),
            texts.len(),
            sheet.as_mut_ptr().cast_const(),
            sheet.len(),
            component,
        )
    };
    (packed >> 32, packed & 0xffff_ffff)
}

/// What the writing of a card returns: its length, or a refusal's number times
/// 2^48 plus its place.
pub fn card_write(profile: [&[u8]; 4], texts: &[u8], sheet: &[u8], card: &mut [u8]) -> u64 {
    let [model, layouts, variants, options] = profile;
    // SAFETY: every slice is lent with its own length, and `card`, the only one
    // that is written, overlaps no other.
    unsafe {
        xkbrules_card_write(
            model.as_ptr(),
            model.len(),
            layouts.as_ptr(),
            layouts.len(),
            variants.as_ptr(),
            variants.len(),
            options.as_ptr(),
            options.len(),
            texts.as_ptr(),
            texts.len(),
            sheet.as_ptr(),
            sheet.len(),
            card.as_mut_ptr(),
            card.len(),
        )
    }
}

/// What the reading of a card returns: 0, or a refusal's number times 2^48.
pub fn card_read(card: &[u8], texts: &mut [u8], sheet: &mut [u8]) -> u64 {
    // SAFETY: every slice is lent with its own length, and no two overlap.
    unsafe {
        xkbrules_card_read(
            card.as_ptr(),
            card.len(),
            texts.as_mut_ptr(),
            texts.len(),
            sheet.as_mut_ptr(),
            sheet.len(),
        )
    }
}
