//! Listed cases: sizes at every limit and beyond.

use crate::case::{Case, MODEL, OPTIONS};

const ROOM: usize = 2048;
const FILE: usize = 65_536;
const TOTAL: usize = 1_048_576;

fn x(length: usize) -> String {
    "x".repeat(length)
}

pub fn all() -> Vec<Case> {
    let mut list = Vec::new();
    words(&mut list);
    files(&mut list);
    texts(&mut list);
    counts(&mut list);
    groups(&mut list);
    names(&mut list);
    totals(&mut list);
    long_texts(&mut list);
    headings(&mut list);
    list
}

fn words(list: &mut Vec<Case>) {
    for length in 253..260 {
        let word = x(length);
        let rest = x(length - 1);
        for rules in [
            format!("! model = symbols\n* = {word}\n"),
            format!("! model = symbols\n* ={word}\n"),
            format!("! model = symbols\n{word} = a\n* = b\n"),
            format!("! model = symbols\n* = %m{}\n", x(length - 2)),
            format!("! model = symbols\n* = {word} // {word}{word}\n"),
            format!("! model = symbols\n* = a //{word}{word}\n"),
            format!("! model = symbols\n* = \\\n{word}\\\n\n"),
            format!("! model = symbols\n* = {}//\n", x(length - 2)),
            format!("! model = symbols\n* = +{rest} b\n"),
            format!("! model = {word}\n"),
            format!("! {word} = symbols\n"),
            format!("!{word} = symbols\n"),
            format!("!{word}\n"),
            word.clone(),
            format!("{word}\\\n{word}"),
            format!("! $g = {word}\n! model = symbols\n$g = a\n"),
            format!("! ${rest} = pc\n! model = symbols\n${rest} = a\n"),
            format!("! include {word}\n"),
            format!("! include{}\n", x(length - 7)),
            format!("{}\u{1}\n", rest),
        ] {
            list.push(Case::text(&rules, ["pc", "us", "", ""], ROOM));
        }
    }
}

fn files(list: &mut Vec<Case>) {
    let begin = "! model = symbols\n* = a\n";
    for length in FILE - 1..=FILE + 2 {
        let fill = |begin: &str, filler: &str, end: &str| {
            let mut rules = String::from(begin);
            while rules.len() + filler.len() + end.len() <= length {
                rules += filler;
            }
            rules += &" ".repeat(length - rules.len() - end.len());
            rules + end
        };
        let mut comment = fill(begin, "//", "");
        comment.replace_range(length - 1.., "\n");
        for rules in [
            fill("", "\n", ""),
            fill("", " ", ""),
            fill("", "\\\n", ""),
            fill(begin, "\n", ""),
            fill(begin, "// comment\n", "\\"),
            fill(begin, "a = b\n", ""),
            fill(begin, "a = b\n", "* = %"),
            fill(begin, "! option = types\n* = +b\n", ""),
            fill(
                "",
                "! layout[any] option = types symbols\n* * = %l[%i] :%i\n",
                "",
            ),
            fill(begin, "x", ""),
            comment,
        ] {
            list.push(Case::text(&rules, ["pc", "us,fr", "", ""], ROOM));
        }
    }
}

/// A text of this length with fields of at most `field` bytes.
fn text_of(length: usize, field: usize) -> String {
    let mut text = String::new();
    while text.len() < length {
        let left = length - text.len();
        let comma = text.len() % (field + 1) == field && left > 1;
        text.push(if comma { ',' } else { 'o' });
    }
    text
}

fn texts(list: &mut Vec<Case>) {
    let rules = "! option = symbols types\n* = %m%(l)%(v) +%m:all\nooo = +o +p\n";
    for length in [0, 1, 62, 63, 64, 65, 66, 129, 1022, 1023, 1024, 1025, 1026] {
        for field in [16, 63, 64, 65, 2000] {
            for text in MODEL..=OPTIONS {
                let mut case = Case::text(rules, ["pc", "us", "", "o"], ROOM);
                case.inputs[text] = text_of(length, field).into_bytes();
                list.push(case);
            }
        }
    }
    for length in 62..67 {
        for at in 0..4 {
            for text in MODEL..=OPTIONS {
                let mut fields = vec!["a".to_string(); 4];
                fields[at] = x(length);
                let mut case = Case::text(rules, ["pc", "us,fr,de,gb", "", "o"], ROOM);
                case.inputs[text] = fields.join(",").into_bytes();
                list.push(case);
            }
        }
    }
}

fn counts(list: &mut Vec<Case>) {
    let rules = "! layout[any] variant[any] option = symbols\n* * * = +%l[%i]%(v[%i])\n\
                 ! layout[any] = types\n* = %i%v[%i]:all\n\
                 ! variant[any] = compat\n* = |%v[%i]\n";
    for layouts in 0..7 {
        for variants in 0..7 {
            for empty in [false, true] {
                let field = |name: &str| if empty { "" } else { name }.to_string();
                let layouts = vec![field("us"); layouts].join(",");
                let variants = vec![field("intl"); variants].join(",");
                list.push(Case::text(rules, ["pc", &layouts, &variants, "o"], ROOM));
            }
        }
    }
    let rules = "! option = symbols\no = +o\n* = +s\np = +p\no0 = +x\no63 = +y\no64 = +z\n";
    for count in [0, 1, 2, 62, 63, 64, 65, 66, 100] {
        let names: Vec<String> = (0..count).map(|i| format!("o{i}")).collect();
        let empty: Vec<String> = names.iter().map(|name| format!(",,{name},")).collect();
        for options in [
            names.join(","),
            empty.join(","),
            "o,".repeat(count),
            ",".repeat(count * 5),
            format!("{}p", ",".repeat(count)),
        ] {
            list.push(Case::text(rules, ["pc", "us", "", &options], ROOM));
        }
    }
}

fn groups(list: &mut Vec<Case>) {
    for count in [1, 2, 63, 64, 65, 66, 200] {
        let line = |i: usize| format!("! $g{i} = a{i} pc\n");
        let lines: String = (0..count).map(line).collect();
        let last = count - 1;
        let set = format!("! model = symbols\n$zz = z\n$g{last} = a\n* = b\n");
        for rules in [
            format!("{lines}{set}"),
            format!("{lines}! $g0 = b\n{set}"),
            format!("{lines}! $g{last} = b\n{set}"),
            format!("{lines}! $g0 = = b\n{set}"),
            format!("{lines}! $g0\n{set}"),
            format!("{set}{lines}"),
            format!("{lines}$g0 = x\n{set}"),
            format!("{lines}{set}{lines}"),
            format!("{lines}! $new = b\n{set}"),
        ] {
            list.push(Case::text(&rules, ["pc", "us", "", ""], ROOM));
        }
    }
}

/// Up to 64 names that are hard to tell apart, as groups and as options, listed in
/// several orders: each of them is asked for, and names between them.
fn names(list: &mut Vec<Case>) {
    let letters: Vec<char> = ('0'..='9')
        .chain('A'..='Z')
        .chain('a'..='z')
        .chain("_-".chars())
        .collect();
    let letter = |i: usize| letters[i];
    let makers: [&dyn Fn(usize) -> String; 6] = [
        &|i| letter(i).to_string(),
        &|i| format!("a{}a", letter(i)),
        // first, last and middle byte alike
        &|i| format!("a{}aa", letter(i)),
        &|i| format!("{}aaaaaaaa", letter(i)),
        &|i| format!("aaaaaaaa{}", letter(i)),
        &|i| x(i % 12 + 1) + &letter(i / 12).to_string(),
    ];
    for maker in makers {
        for count in [1, 2, 3, 4, 7, 8, 9, 31, 32, 33, 63, 64] {
            for step in [1, 5, 27, 63] {
                // an order of all 64, of which `count` are listed
                let listed: Vec<usize> = (0..count).map(|i| i * step % 64).collect();
                let lines: String = listed
                    .iter()
                    .map(|&i| format!("! ${} = {}\n", maker(i), ["pc", "us o", ""][i % 3]))
                    .collect();
                let mut groups = format!("{lines}! model layout option = symbols\n");
                let mut options = String::from("! option = symbols\n");
                for i in 0..64 {
                    let name = maker(i);
                    groups +=
                        &format!("${name} * * = +m{i}\n* ${name} * = +l{i}\n* * ${name} = +o{i}\n");
                    options += &format!("{name} = +{i}\n");
                }
                let asked: Vec<String> = listed.iter().map(|&i| maker(i)).collect();
                let asked = asked.join(",");
                let again = format!("{asked},,{},o", maker(listed[0]));
                for rules in [&groups, &options] {
                    for text in ["o", &asked, &again] {
                        list.push(Case::text(rules, ["pc", "us", "", text], FILE));
                    }
                }
            }
        }
    }
}

/// Rules of which each fires `word`, then plain words up to the total.
fn up_to(heading: &str, word: &str, fired: usize, total: usize) -> String {
    let mut rules = format!("! {heading}\n");
    for _ in 0..total / fired {
        rules += &format!("* = {word}\n");
    }
    rules + &additions("geometry", total % fired)
}

/// Rules whose additions to the five components are this long together, no component's longer than a third.
fn in_five(total: usize) -> String {
    let word = format!("+{}", "%m".repeat(60));
    let length = 5 * (1 + 60 * 64);
    let mut rules = "! option = keycodes types compat symbols geometry\n".to_string();
    for _ in 0..total / length {
        rules += &format!("* = {word} {word} {word} {word} {word}\n");
    }
    rules + &additions("geometry", total % length)
}

fn totals(list: &mut Vec<Case>) {
    let model = "m".repeat(64);
    let items = format!("+{}", "%m".repeat(127));
    let copied = "|%m:all".repeat(36);
    for total in [TOTAL - 1, TOTAL, TOTAL + 1, TOTAL + 2] {
        let one = up_to("option = symbols", &items, 1 + 127 * 64, total);
        let four = up_to("option = compat", &copied, 36 * 4 * 67, total);
        for room in [0, TOTAL - 2, TOTAL - 1, TOTAL, TOTAL + 1, 2 * TOTAL] {
            list.push(Case::text(&one, [&model, "us", "", ""], room));
            list.push(Case::text(&four, [&model, "a,b,c,d", "", ""], room));
        }
    }
    for total in [TOTAL - 1, TOTAL, TOTAL + 1, TOTAL + 2] {
        let shared = in_five(total);
        for more in [
            "",
            "! model = symbols\n* = s\n",
            "! option = types\n* = %v[3]\n* = +t\n",
        ] {
            for room in [0, TOTAL - 1, TOTAL, TOTAL + 1, 2 * TOTAL] {
                let rules = format!("{shared}{more}");
                list.push(Case::text(&rules, [&model, "us", "", ""], room));
            }
        }
    }
    let model = "+:all".repeat(12);
    let rule = format!("* * = {}\n", "%m".repeat(128));
    let rules = format!("! layout[any] option = types\n{}", rule.repeat(245));
    list.push(Case::text(&rules, [&model, "a,b,c,d", "", ""], TOTAL));
    for total in 0..40 {
        for room in 0..40 {
            let length = |part: usize| (total + part) / 3;
            let rules = format!(
                "! model = keycodes geometry symbols\n* = {} {}{} {}{}\n",
                x(length(0).max(1)),
                if total % 2 == 0 { "+" } else { "" },
                x(length(1)),
                if total % 5 == 0 { "|" } else { "y" },
                x(length(2))
            );
            list.push(Case::text(&rules, ["pc", "us", "", ""], room));
        }
    }
}

/// Rules of a set whose additions to one component make this length.
fn additions(component: &str, length: usize) -> String {
    let mut rules = format!("! option = {component}\n");
    let mut left = length;
    while left > 0 {
        let piece = left.min(256);
        rules += &format!("* = +{}\n", x(piece - 1));
        left -= piece;
    }
    rules
}

/// Texts around 1,024 bytes, and around its multiples: a resolve keeps texts up to
/// this length in a region of their own until their lengths are known.
fn long_texts(list: &mut Vec<Case>) {
    let model = "m".repeat(64);
    let short = "! model = keycodes types compat symbols geometry\n* = k t c s g\n";
    let more = "! option = keycodes types compat symbols geometry\n* = +k |t +c |s +g\n";
    for component in ["keycodes", "types", "compat", "symbols", "geometry"] {
        for length in [
            1, 1022, 1023, 1024, 1025, 1026, 2047, 2048, 2049, 8192, 10_239, 10_240, 10_241, 20_000,
        ] {
            let added = additions(component, length);
            let base = format!(
                "! model = {component}\n* = {}{}\n",
                "%m".repeat((length / 64).min(120)),
                x(length % 64 + 1)
            );
            for rules in [
                added.clone(),
                format!("{short}{added}"),
                format!("{added}{short}"),
                format!("{short}{added}{more}"),
                format!("{base}{short}"),
                format!("{base}{added}{more}"),
                format!("{}{}", added, additions("symbols", 1024)),
            ] {
                let total = Case::text(&rules, [&model, "us", "", ""], TOTAL)
                    .second()
                    .total();
                for room in [0, total.saturating_sub(1), total, total + 1, TOTAL] {
                    list.push(Case::text(&rules, [&model, "us", "", ""], room));
                }
            }
        }
    }
}

/// More and more headings, among them groups that later sets ask for: those up to the 128th are listed by the check.
fn headings(list: &mut Vec<Case>) {
    for count in [1, 2, 63, 126, 127, 128, 129, 130, 131, 200, 300] {
        let mut plain = String::new();
        let mut mixed = String::from("// a file\n\n");
        let mut sparse = String::new();
        let mut last = 0;
        for i in 0..count {
            plain += &format!("! option = symbols\n* = +a{i}\n");
            sparse += &format!("! layout[{}] = symbols\n* = +a{i}\n", i % 4 + 1);
            if i % 4 == 0 && i < 240 {
                mixed += &format!(" \\\n! $g{i} = o \\\n us x{i} // g\n");
                last = i;
            } else {
                mixed += &format!("!layout[any] option = types symbols // h\n$g{last} o = +t{i} +s%i\n\n* $g{last} = |u +%l[%i]\n");
            }
        }
        for rules in [&plain, &mixed, &sparse] {
            for layouts in ["us", "us,x4,fr", "a,b,c,us"] {
                list.push(Case::text(rules, ["pc", layouts, "", "o,p"], FILE));
            }
        }
    }
}
