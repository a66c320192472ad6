//! Generated files and profiles. A file is first a list of lines of
//! words; faults are put into these; then it is written out with blanks,
//! comments and joined lines; then bytes may be damaged.

use crate::bundles;
use crate::case::Case;
use crate::damage;
use crate::library::LANDED;
use crate::prng::Prng;
use crate::words::{self, Profile, GROUPS};

/// A line before it is written out.
#[derive(Clone, Default)]
pub struct Row {
    pub heading: bool,
    pub words: Vec<String>,
}

fn group_row(rng: &mut Prng, name: &str, profile: &Profile) -> Row {
    let mut words = vec![name.to_string(), "=".into()];
    for _ in 0..rng.below(6) {
        let item = b"mlvo"[rng.below(4)];
        words.push(words::value(rng, item, profile));
    }
    Row {
        heading: true,
        words,
    }
}

/// An index that applies to the profile, mostly.
fn index(rng: &mut Prng, layouts: usize) -> &'static str {
    let list: &[&str] = match (rng.chance(20), layouts) {
        (true, _) => &["", "[1]", "[2]", "[3]", "[4]", "[single]", "[later]"],
        (false, 1) => &["", "[single]", "[first]", "[any]"],
        (false, 2) => &["[1]", "[2]", "[first]", "[later]", "[any]"],
        (false, 3) => &["[1]", "[2]", "[3]", "[first]", "[later]", "[any]"],
        (false, _) => &["[1]", "[3]", "[4]", "[first]", "[later]", "[any]"],
    };
    rng.pick(list)
}

/// A set heading; also its left items by letter, how many right items it has,
/// and whether its index is a word.
fn heading_row(rng: &mut Prng, layouts: usize) -> (Row, Vec<u8>, usize, bool) {
    let mut left = b"mlvo".to_vec();
    rng.shuffle(&mut left);
    left.truncate([1, 1, 1, 2, 2, 3, 4][rng.below(7)]);
    let index = index(rng, layouts);
    let placed = left.iter().any(|item| b"lv".contains(item));
    let mut words: Vec<String> = Vec::new();
    for item in &left {
        words.push(match item {
            b'm' => "model".into(),
            b'o' => "option".into(),
            b'l' => format!("layout{index}"),
            _ => format!("variant{index}"),
        });
    }
    words.push("=".into());
    let mut right = ["symbols", "keycodes", "types", "compat", "geometry"];
    if rng.chance(60) {
        rng.shuffle(&mut right);
    }
    let count = [1, 1, 1, 1, 2, 2, 3, 5][rng.below(8)];
    words.extend(right[..count].iter().map(|item| item.to_string()));
    let index_word = placed && index.len() > 3;
    let heading = true;
    (Row { heading, words }, left, count, index_word)
}

fn set_rows(rng: &mut Prng, profile: &Profile, groups: &[&str], most: usize) -> Vec<Row> {
    let (heading, left, right, index_word) = heading_row(rng, profile.layouts.len());
    let mut rows = vec![heading];
    let count = if rng.chance(5) {
        0
    } else {
        rng.between(1, most)
    };
    for _ in 0..count {
        let mut words: Vec<String> = Vec::new();
        for item in &left {
            words.push(words::left_word(rng, *item, profile, groups));
        }
        words.push("=".into());
        for _ in 0..right {
            words.push(words::right_word(rng, index_word));
        }
        let heading = false;
        rows.push(Row { heading, words });
    }
    rows
}

/// A valid file: groups among sets. Rules may name the groups in `named`.
pub fn valid_rows(
    rng: &mut Prng,
    profile: &Profile,
    defined: &[&str],
    named: &[&str],
    sets: usize,
) -> Vec<Row> {
    let mut names: Vec<&str> = defined.to_vec();
    rng.shuffle(&mut names);
    names.truncate(rng.below(names.len() + 1));
    let mut rows = Vec::new();
    for _ in 0..sets {
        while !names.is_empty() && rng.chance(60) {
            let name = names.pop().unwrap_or_default();
            rows.push(group_row(rng, name, profile));
        }
        let most = [2, 3, 4, 8][rng.below(4)];
        rows.extend(set_rows(rng, profile, named, most));
    }
    rows
}

/// Up to more groups than there may be.
fn many_groups(rng: &mut Prng, profile: &Profile) -> Vec<Row> {
    let count = rng.between(60, 66);
    let mut names: Vec<String> = (0..count).map(|i| format!("$n{i}")).collect();
    if rng.chance(30) {
        let (from, to) = (rng.below(count), rng.below(count));
        names[to] = names[from].clone();
    }
    let mut rows = Vec::new();
    for name in &names {
        rows.push(group_row(rng, name, profile));
    }
    let first: Vec<&str> = names.iter().map(String::as_str).collect();
    rows.extend(set_rows(rng, profile, &first, 8));
    rows
}

const GAPS: &[&str] = &[
    " ",
    " ",
    " ",
    "  ",
    "\t",
    " \t ",
    "\\\n",
    " \\\n ",
    "\t\\\n\\\n",
];
const ENDS: &[&str] = &[
    "",
    "",
    "",
    "",
    " ",
    "\t ",
    " // note",
    " //",
    "\t// a = b \\",
    " \\\n",
    "\\\n // x",
    " // \u{1}\u{7f}\\",
];
const BETWEEN: &[&str] = &[
    "\n",
    " \t\n",
    "// comment\n",
    "  //! model = types\n",
    "\\\n\n",
    " \\\n // \\\n",
    "//\\\n",
    "\\\n\\\n \n",
];
const MARKS: &[&str] = &["! ", "! ", "!", " ! ", "\t!\t", "!\\\n", "\\\n!"];

/// Writes the lines out.
pub fn write(rng: &mut Prng, rows: &[Row]) -> Vec<u8> {
    let plain = rng.chance(30);
    let mut text = String::new();
    for row in rows {
        if !plain && rng.chance(15) {
            text += rng.pick(BETWEEN);
        }
        let odd = !plain && rng.chance(40);
        let gap = if odd { rng.pick(GAPS) } else { " " };
        if row.heading {
            text += if odd { rng.pick(MARKS) } else { "! " };
        } else if odd && rng.chance(30) {
            text += rng.pick(&[" ", "\t", "\\\n"]);
        }
        text += &row.words.join(gap);
        if odd {
            text += rng.pick(ENDS);
        }
        text.push('\n');
    }
    if rng.chance(10) {
        text.pop();
    }
    if LANDED.cr_lf && rng.chance(12) {
        text = office_line_ends(rng, &text);
    }
    text.into_bytes()
}

/// All or some line ends made CR LF, and now and then a CR too many.
fn office_line_ends(rng: &mut Prng, text: &str) -> String {
    let all = rng.chance(60);
    let mut changed = String::new();
    for byte in text.chars() {
        if byte == '\n' && (all || rng.chance(40)) {
            changed.push('\r');
        }
        if rng.below(1000) == 0 {
            changed.push('\r');
        }
        changed.push(byte);
    }
    changed
}

fn long_file(rng: &mut Prng, profile: &Profile) -> Vec<u8> {
    let sets = rng.between(50, 700);
    let rows = valid_rows(rng, profile, GROUPS, GROUPS, sets);
    let mut rules = write(rng, &rows);
    if rules.len() > 65_536 || rng.chance(50) {
        let length = rng.between(65_530, 65_540);
        rules.resize(length.max(1), b' ');
        if rng.chance(50) {
            let end = rules.iter().rposition(|&b| b == b'\n');
            rules[end.map_or(0, |at| at + 1)..].fill(b'/');
        }
    }
    rules
}

/// Few long words that grow much, for totals around the largest.
fn large_texts(rng: &mut Prng, profile: &mut Profile) -> Vec<u8> {
    let unit = rng.pick(&["m", "a:all+", "+b:all", "|", "x"]);
    profile.model = unit.repeat(64 / unit.len());
    let item = rng.pick(&["%m", "%+m", "%(m)", "+%m:all", "|x%m"]);
    let word = item.repeat(rng.between(1, 256 / item.len()));
    let rule = format!("* = {word}\n");
    let heading = rng.pick(&["option = symbols", "option = types", "model = compat"]);
    let most = (65_000 / rule.len()).min(170);
    let rules = format!("! {heading}\n{}", rule.repeat(rng.between(1, most)));
    rules.into_bytes()
}

pub fn room(rng: &mut Prng) -> usize {
    match rng.below(100) {
        0..=44 => 4096,
        45..=69 => 1024,
        70..=79 => rng.below(500),
        80..=89 => rng.below(60),
        _ => 65_536,
    }
}

fn rules(rng: &mut Prng, profile: &mut Profile) -> Vec<u8> {
    let sets = [1, 2, 2, 3, 4, 5, 9][rng.below(7)];
    match rng.below(1000) {
        0..=599 => {
            let rows = valid_rows(rng, profile, GROUPS, GROUPS, sets);
            write(rng, &rows)
        }
        600..=759 => {
            let mut rows = valid_rows(rng, profile, GROUPS, GROUPS, sets);
            damage::fault(rng, &mut rows);
            write(rng, &rows)
        }
        760..=899 => {
            let rows = valid_rows(rng, profile, GROUPS, GROUPS, sets);
            let mut rules = write(rng, &rows);
            damage::bytes(rng, &mut rules);
            rules
        }
        900..=949 => damage::soup(rng),
        950..=964 => {
            let length = rng.below(40);
            (0..length).map(|_| rng.below(256) as u8).collect()
        }
        965..=994 => {
            let rows = many_groups(rng, profile);
            write(rng, &rows)
        }
        995..=997 => long_file(rng, profile),
        _ => large_texts(rng, profile),
    }
}

/// The generated case of a seed and an index.
pub fn case(seed: u64, index: u64) -> Case {
    let mut rng = Prng::new(seed, index);
    let mut profile = words::profile(&mut rng);
    if rng.chance(4) {
        words::stretch_profile(&mut rng, &mut profile);
    }
    let rules = rules(&mut rng, &mut profile);
    let mut texts = profile.texts();
    if rng.chance(3) {
        words::damage_texts(&mut rng, &mut texts);
    }
    let mut room = room(&mut rng);
    if rules.len() > 1000 && rng.chance(20) {
        room = (1 << 20) - 1 + rng.below(3);
    }
    Case::new(&rules, texts.each_ref().map(Vec::as_slice), room)
}

/// A generated case of either kind.
pub fn any_case(seed: u64, index: u64) -> Case {
    if LANDED.bundles && index % 2 == 0 {
        return bundles::case(seed, index);
    }
    case(seed, index)
}
