//! Listed cases of CR: in every place of a file, and in all short files.

use crate::case::Case;
use crate::tables::{PROGRAM, PROGRAM_PROFILE};

const ROOM: usize = 300;

const LETTERS: &[u8] = b"\r\n\\/a !=";
const SHORT: u64 = 1 + 8 + 64 + 512 + 4096;
const FIVE: u64 = 6 * 6 * 6 * 6 * 6;
const BEFORE: [&str; 2] = ["", "! model = symbols\n* = b "];

/// How many short files there are: up to four of eight bytes, and five of the
/// first six, behind each of two beginnings.
pub const SHORT_FILES: u64 = 2 * (SHORT + FIVE);

pub fn short_file(index: u64) -> Case {
    let before = BEFORE[(index % 2) as usize];
    let mut number = index / 2;
    let (mut length, mut letters) = (5, 6);
    if number < SHORT {
        (length, letters) = (0, 8);
        let mut count = 1;
        while number >= count {
            number -= count;
            count *= 8;
            length += 1;
        }
    } else {
        number -= SHORT;
    }
    let mut rules = before.as_bytes().to_vec();
    for _ in 0..length {
        rules.push(LETTERS[(number % letters) as usize]);
        number /= letters;
    }
    Case::new(&rules, [b"a", b"us", b"", b"a"], ROOM)
}

/// Lines joined, with comments and without, groups, headings and rules.
const FILE: &str = "\
// a comment \\
! $g = us \\
  fr // more
! layout[any] option = symbols \\
 types
$g o1 = +%l[%i] \\
 |t // x \\
* \\
 * \\
 = \\
 a \\
 b\\

! option = compat
o1 = c
\\
\\
* = +d
! $h =
";

/// Every line end, one at a time and all, in several spellings; a CR everywhere.
pub fn everywhere() -> Vec<Case> {
    let mut list = Vec::new();
    for (file, profile) in [
        (FILE, ["pc", "us,fr,de", "", "o2,o1"]),
        (PROGRAM, PROGRAM_PROFILE),
    ] {
        for spelling in [
            "\r\n", "\r\r\n", "\r", "\n\r", "\\\r\n", "\r\\\n", "\\\r\r\n", " \r\n",
        ] {
            list.push(Case::text(&file.replace('\n', spelling), profile, ROOM));
            for at in 0..=file.len() {
                let (before, behind) = file.split_at(at);
                list.push(Case::text(
                    &format!("{before}{spelling}{behind}"),
                    profile,
                    ROOM,
                ));
                if let Some(behind) = behind.strip_prefix('\n') {
                    list.push(Case::text(
                        &format!("{before}{spelling}{behind}"),
                        profile,
                        ROOM,
                    ));
                }
            }
        }
        // CR LF up to a place, and from there on; cut there.
        for at in 0..=file.len() {
            let (before, behind) = file.split_at(at);
            let (one, two) = (before.replace('\n', "\r\n"), behind.replace('\n', "\r\n"));
            for rules in [
                format!("{one}{behind}"),
                format!("{before}{two}"),
                format!("{one}\r"),
                one.clone(),
                two.clone(),
            ] {
                list.push(Case::text(&rules, profile, ROOM));
            }
        }
    }
    long(&mut list);
    list
}

/// Words and files at their limits: the CR of a line end is in the file, not in
/// the word.
fn long(list: &mut Vec<Case>) {
    for length in 254..259 {
        let word = "x".repeat(length);
        for end in [
            "\r\n", "\r", "\\\r\n", "\\\r", "\r\r\n", "//\r\n", " //\r\n",
        ] {
            let rules = format!("! model = symbols\n* = {word}{end}");
            list.push(Case::text(&rules, ["pc", "us", "", ""], ROOM));
            let rules = format!("! $g = {word}{end}! model = symbols\r\n$g = a{end}");
            list.push(Case::text(&rules, ["pc", "us", "", ""], ROOM));
        }
    }
    for count in [32_766, 32_767, 32_768, 32_769] {
        for end in ["", "x", "\r", "\n", "!"] {
            let rules = format!("{}{end}", "\r\n".repeat(count));
            list.push(Case::text(&rules, ["pc", "us", "", ""], ROOM));
        }
    }
}
