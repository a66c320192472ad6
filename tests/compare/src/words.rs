//! Words and profiles from which generated cases are made.

use crate::prng::Prng;

const MODELS: &[&str] = &[
    "pc105", "pc", "olpc", "desk9", "jollasbj", "a,b", "x:all", "+m", "|m:all", "a:all|b", "*",
    "$g0", "%m", "m=n", "(m)", "=", "!", "//", "al", ":", ",", "include",
];
const LAYOUTS: &[&str] = &[
    "us", "fr", "be", "gb", "de", "es", "il", "x", "*", "+w", "us:all", "$g0", "a|b", "%l", "(x)",
    "=", "a//b", "all", ":1",
];
const VARIANTS: &[&str] = &[
    "intl",
    "bepo",
    "dvorak",
    "nodeadkeys",
    "v:all",
    "|v",
    "*",
    "$azerty",
    "(y)",
    "%v",
    "-",
    "_",
];
const OPTIONS: &[&str] = &[
    "ctrl:nocaps",
    "caps:digits_row",
    "misc:typo",
    "lv3:ralt_alt",
    "compose:menu",
    "grp:alt",
    "o1",
    "o2",
    "*",
    "$g1",
    "=",
    "!x",
    "us",
];
pub const GROUPS: &[&str] = &["$g0", "$g1", "$azerty", "$qwertz", "$=", "$$", "$a,b"];
/// Groups of a file that is put behind another.
pub const LATER_GROUPS: &[&str] = &["$h0", "$h1", "$west", "$*", "$g00"];
const UNDEFINED: &[&str] = &["$none", "$g", "$G0"];

/// The profile as fields, before it is written out.
#[derive(Clone, Default)]
pub struct Profile {
    pub model: String,
    pub layouts: Vec<String>,
    pub variants: Vec<String>,
    pub options: Vec<String>,
}

impl Profile {
    pub fn texts(&self) -> [Vec<u8>; 4] {
        [
            self.model.clone().into_bytes(),
            self.layouts.join(",").into_bytes(),
            self.variants.join(",").into_bytes(),
            self.options.join(",").into_bytes(),
        ]
    }
}

/// Mostly one of the first words of a list, which are plain.
fn word(rng: &mut Prng, list: &[&str], plain: usize) -> String {
    let end = if rng.chance(80) { plain } else { list.len() };
    list[rng.below(end)].to_string()
}

pub fn profile(rng: &mut Prng) -> Profile {
    let mut profile = Profile::default();
    if !rng.chance(4) {
        profile.model = word(rng, MODELS, 5);
    }
    let count = [1, 1, 1, 1, 2, 2, 2, 3, 3, 4, 4][rng.below(11)];
    for _ in 0..count {
        let empty = rng.chance(6);
        let layout = word(rng, LAYOUTS, 7);
        let layout = if empty { String::new() } else { layout };
        profile.layouts.push(layout);
    }
    for _ in 0..rng.below(count + 1) {
        let empty = rng.chance(30);
        let variant = word(rng, VARIANTS, 4);
        let variant = if empty { String::new() } else { variant };
        profile.variants.push(variant);
    }
    for _ in 0..[0, 1, 1, 2, 2, 3, 5][rng.below(7)] {
        let empty = rng.chance(12);
        let option = word(rng, OPTIONS, 8);
        let option = if empty { String::new() } else { option };
        profile.options.push(option);
    }
    profile
}

/// Makes a profile that is at a limit or beyond it.
pub fn stretch_profile(rng: &mut Prng, profile: &mut Profile) {
    match rng.below(8) {
        0 => profile.layouts = vec!["us".into(); rng.between(4, 6)],
        1 => profile.variants = vec!["".into(); rng.between(1, 6)],
        2 => {
            let count = rng.between(62, 67);
            profile.options = (0..count).map(|i| format!("o{}", i % 50)).collect();
        }
        3 => profile.options = vec!["".into(); rng.between(1000, 1027)],
        4 => profile.model = "m".repeat(rng.between(62, 66)),
        5 => profile.layouts[0] = "l".repeat(rng.between(62, 66)),
        6 => profile.variants = vec!["v".repeat(rng.between(62, 66))],
        _ => profile.options.push("o".repeat(rng.between(62, 66))),
    }
}

/// Puts a byte, mostly a bad one, somewhere into one of the texts.
pub fn damage_texts(rng: &mut Prng, texts: &mut [Vec<u8>]) {
    let text = rng.below(4);
    let at = rng.below(texts[text].len() + 1);
    let byte = if rng.chance(30) {
        rng.below(256) as u8
    } else {
        [
            0, 9, 10, 0x1f, 0x20, 0x7f, 0x80, 0xff, b',', b'!', b'~', b'\\',
        ][rng.below(12)]
    };
    texts[text].insert(at, byte);
}

fn ordinary(word: &str) -> bool {
    !word.is_empty() && word != "=" && !word.starts_with(['!', '$', '*']) && !word.starts_with("//")
}

/// An ordinary word for a left item: `m`, `l`, `v` or `o`.
pub fn value(rng: &mut Prng, item: u8, profile: &Profile) -> String {
    let (own, list, plain): (&[String], &[&str], usize) = match item {
        b'm' => (std::slice::from_ref(&profile.model), MODELS, 5),
        b'l' => (&profile.layouts, LAYOUTS, 7),
        b'v' => (&profile.variants, VARIANTS, 4),
        _ => (&profile.options, OPTIONS, 8),
    };
    let mut found = word(rng, list, plain);
    if !own.is_empty() && rng.chance(75) {
        found = own[rng.below(own.len())].clone();
    }
    if ordinary(&found) {
        found
    } else {
        "other".into()
    }
}

/// A left word: a wildcard, a group or a value.
pub fn left_word(rng: &mut Prng, item: u8, profile: &Profile, groups: &[&str]) -> String {
    match rng.below(100) {
        0..=39 => "*".into(),
        40..=53 => rng.pick(groups).into(),
        54..=55 => rng.pick(UNDEFINED).into(),
        _ => value(rng, item, profile),
    }
}

const PIECES: &[&str] = &[
    "pc", "x", "evdev", "foo", "bar", "(base)", ":all", ":all", ":1", ":2", "-q", "_r", "a//b",
    "=", "!", "$", "*", "[1]", "(", ")", ":al", "all", ",", "l", "~", "#", "^", "<", ":all:all",
    "/", "//",
];
const ITEMS: &[&str] = &[
    "%l", "%v", "%m", "%(v)", "%(l)", "%(m)", "%l[1]", "%l[2]", "%v[1]", "%v[2]", "%l[3]", "%v[4]",
    "%(v[1])", "%(l[2])", "%+l", "%|v", "%-m", "%_v", "%+l[2]", "%|v[3]", "%-l[4]", "%_v[1]",
    "%+m", "%m[1]", "%(v[3])",
];
const INDEX_ITEMS: &[&str] = &[
    "%i", ":%i", "%l[%i]", "%v[%i]", "%(v[%i])", "%(l[%i])", "%+l[%i]", "%|v[%i]", "%-l[%i]",
    "%_v[%i]", "%i[9]", "%m[%i]",
];
/// Malformed percent items.
const BAD_ITEMS: &[&str] = &[
    "%", "%%", "%x", "%l[", "%l[0]", "%l[5]", "%l[]", "%l[1", "%v[%i", "%v[%l]", "%(l", "%(l[1]",
    "%(i)", "%+i", "%+(l)", "%(+l)", "%(m[1])", "%++l", "%[1]", "%()", "%L", "%l[a]", "%(v[6])",
    "%+", "%(", "%1", "%:all",
];

pub fn bad_item(rng: &mut Prng) -> &'static str {
    rng.pick(BAD_ITEMS)
}

/// An ordinary right word; `%i` only where the heading's index is a word.
pub fn right_word(rng: &mut Prng, index_word: bool) -> String {
    let mut word = String::new();
    match rng.below(10) {
        0..=3 => word.push('+'),
        4 => word.push('|'),
        _ => {}
    }
    for _ in 0..rng.between(1, 4) {
        match rng.below(100) {
            0..=34 => word += rng.pick(&PIECES[..10]),
            35..=44 => word += rng.pick(PIECES),
            45..=54 => word.push(if rng.chance(70) { '+' } else { '|' }),
            55..=79 if index_word => word += rng.pick(INDEX_ITEMS),
            _ => word += rng.pick(ITEMS),
        }
    }
    if ordinary(&word) {
        word
    } else {
        format!("w{word}")
    }
}
