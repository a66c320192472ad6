//! 001's tables and document 01's examples, each as a file, a profile and the
//! strings that they give.

use crate::case::Case;
use crate::check::{call, complaints};
use crate::run::{finish, Failure, Tally};
use crate::second::{Answer, COMPONENTS};

const ROOM: usize = 65_536;

/// A profile and one component's string.
type Expected = ([&'static str; 4], &'static str);

const ALL: &[(&str, usize, &str)] = &[
    ("x:all", 1, "x:1"),
    ("x:all", 2, "x:1+x:2"),
    ("+x:all", 1, "+x:1"),
    ("+x:all", 3, "+x:1+x:2+x:3"),
    ("|x:all", 1, "|x:1"),
    ("|x:all", 4, "|x:1|x:2|x:3|x:4"),
    ("x|y:all", 1, "x|y:1"),
    ("x|y:all", 3, "x|y:1|y:2|y:3"),
    ("x:all+y|z:all", 2, "x:1+x:2+y|z:1|z:2"),
];

/// Fired values in order, and the component's string.
const UPDATES: &[(&[&str], &str)] = &[
    (&["bar"], "bar"),
    (&["foo", "bar"], "foo"),
    (&["+foo", "bar"], "bar+foo"),
    (&["+bar"], "+bar"),
    (&["foo", "+bar"], "foo+bar"),
    (&["+foo", "+bar"], "+foo+bar"),
    (&["+a", "b", "+c"], "b+a+c"),
];

const KEYCODES: &str = "\
! $jollamodels = jollasbj
! $azerty = be fr
! $qwertz = al ch cz de hr hu ro si sk
! model = keycodes
$jollamodels = evdev+jolla(jolla)
olpc = evdev+olpc(olpc)
* = evdev
! layout = keycodes
$azerty = +aliases(azerty)
$qwertz = +aliases(qwertz)
* = +aliases(qwerty)
";

const KEYCODES_ROWS: &[Expected] = &[
    (
        ["jollasbj", "us", "", ""],
        "evdev+jolla(jolla)+aliases(qwerty)",
    ),
    (["olpc", "be", "", ""], "evdev+olpc(olpc)+aliases(azerty)"),
    (["pc", "al", "", ""], "evdev+aliases(qwertz)"),
];

const LAYOUTS: &str = "\
! layout = symbols
* = pc+%l%(v)
// The following would not work: syntax for *multiple* layouts
// in a rule set for *single* layout.
//* = pc+%l[1]%(v[1])
! layout[1] = symbols
* = pc+%l[1]%(v[1])
// The following would not work: syntax for *single* layout
// in a rule set for *multiple* layouts.
//* = pc+%l%(v)
! layout[2] = symbols
* = +%l[2]%(v[2]):2
! layout[3] = symbols
* = +%l[3]%(v[3]):3
";

const LAYOUTS_SHORT: &str = "\
! layout[first] = symbols
* = pc+%l[%i]%(v[%i])
! layout[later] = symbols
* = +%l[%i]%(v[%i]):%i
";

const LAYOUTS_ROWS: &[Expected] = &[
    (["", "us", "", ""], "pc+us"),
    (["", "us", "intl", ""], "pc+us(intl)"),
    (["", "us,es", "", ""], "pc+us+es:2"),
    (
        ["", "us,es,fr", "intl,,bepo", ""],
        "pc+us(intl)+es:2+fr(bepo):3",
    ),
];

const OPTIONS: &str = "\
! $azerty = be fr
! layout = symbols
* = pc+%l%(v)
! layout[1] = symbols
* = pc+%l[1]%(v[1])
! layout[2] = symbols
* = +%l[2]%(v[2])
// Repeat the previous rules set with indexes 3 and 4
! layout option = symbols
$azerty caps:digits_row = +capslock(digits_row)
* misc:typo = +typo(base)
* lv3:ralt_alt = +level3(ralt_alt)
! layout[1] option = symbols
$azerty caps:digits_row = +capslock(digits_row):1
* misc:typo = +typo(base):1
* lv3:ralt_alt = +level3(ralt_alt):1
// Repeat the previous rules set for indexes 2 to 4
";

const OPTIONS_ROWS: &[Expected] = &[
    (
        ["", "be", "", "caps:digits_row"],
        "pc+be+capslock(digits_row)",
    ),
    (["", "gb", "", "caps:digits_row"], "pc+gb"),
    (["", "fr", "", "misc:typo"], "pc+fr+typo(base)"),
    (
        ["", "fr", "", "misc:typo,caps:digits_row"],
        "pc+fr+capslock(digits_row)+typo(base)",
    ),
    (
        ["", "fr", "", "lv3:ralt_alt,caps:digits_row,misc:typo"],
        "pc+fr+capslock(digits_row)+typo(base)+level3(ralt_alt)",
    ),
    // As corrected by document 01.
    (
        ["", "fr,gb", "", "caps:digits_row,misc:typo"],
        "pc+fr+gb+capslock(digits_row):1+typo(base):1",
    ),
];

const OPTIONS_SHORT: &str = "\
! $azerty = be fr
! layout[first] = symbols
* = pc+%l[%i]%(v[%i])
! layout[later] = symbols
* = +%l[%i]%(v[%i])
! layout[any] option = symbols
$azerty caps:digits_row = +capslock(digits_row):%i
! option = symbols
misc:typo = +typo(base):all
lv3:ralt_alt = +level3(ralt_alt):all
";

const OPTIONS_RANGE: &str = "\
! $azerty = be fr
! layout[first] = symbols
* = pc+%l[%i]%(v[%i])
! layout[later] = symbols
* = +%l[%i]%(v[%i])
! layout[any] option = symbols
$azerty caps:digits_row = +capslock(digits_row):%i
! layout[any] option = symbols
* misc:typo = +typo(base):%i
* lv3:ralt_alt = +level3(ralt_alt):%i
";

/// What both shorter forms of the last example give.
const OPTIONS_SHORT_ROWS: &[Expected] = &[
    (
        ["", "be", "", "caps:digits_row"],
        "pc+be+capslock(digits_row):1",
    ),
    (["", "gb", "", "caps:digits_row"], "pc+gb"),
    (["", "fr", "", "misc:typo"], "pc+fr+typo(base):1"),
    (
        ["", "fr", "", "misc:typo,caps:digits_row"],
        "pc+fr+capslock(digits_row):1+typo(base):1",
    ),
    (
        ["", "fr", "", "lv3:ralt_alt,caps:digits_row,misc:typo"],
        "pc+fr+capslock(digits_row):1+typo(base):1+level3(ralt_alt):1",
    ),
    (
        ["", "fr,gb", "", "caps:digits_row,misc:typo"],
        "pc+fr+gb+capslock(digits_row):1+typo(base):1+typo(base):2",
    ),
];

/// 001's first sets, without and with a group.
const FORMAT: &str = "\
// This is a comment
! option = symbols
ctrl:nocaps = +ctrl(nocaps)
compose:menu = +compose(menu)
! layout option = symbols
be caps:digits_row = +capslock(digits_row)
fr caps:digits_row = +capslock(digits_row)
";

const FORMAT_GROUP: &str = "\
! $azerty = be fr
! option = symbols
ctrl:nocaps = +ctrl(nocaps)
compose:menu = +compose(menu)
! layout option = symbols
$azerty caps:digits_row = +capslock(digits_row)
";

const FORMAT_ROWS: &[Expected] = &[
    (
        ["", "us", "", "compose:menu,ctrl:nocaps"],
        "+ctrl(nocaps)+compose(menu)",
    ),
    (["", "be", "", "caps:digits_row"], "+capslock(digits_row)"),
    (
        ["", "fr", "", "caps:digits_row,ctrl:nocaps"],
        "+ctrl(nocaps)+capslock(digits_row)",
    ),
    (["", "us", "", "caps:digits_row"], ""),
];

/// Forms of a rules file, the component looked at, and its string for each
/// profile; all other components are empty.
const TABLES: &[(&[&str], &str, &[Expected])] = &[
    (&[KEYCODES], "keycodes", KEYCODES_ROWS),
    (&[LAYOUTS, LAYOUTS_SHORT], "symbols", LAYOUTS_ROWS),
    (&[OPTIONS], "symbols", OPTIONS_ROWS),
    (
        &[OPTIONS_SHORT, OPTIONS_RANGE],
        "symbols",
        OPTIONS_SHORT_ROWS,
    ),
    (&[FORMAT, FORMAT_GROUP], "symbols", FORMAT_ROWS),
];

/// The example of document 01's program.
pub const PROGRAM: &str = "\
! $west = fr be
! model = keycodes
desk9 = desk(nine)
* = evdev
! layout[first] = symbols
* = pc+%l[%i]%(v[%i])
! layout[later] = symbols
$west = +%l[%i]%(v[%i]):%i
! layout = types
* = complete
! option = symbols types
ctrl:nocaps = +ctrl(nocaps):all |caps
";

pub const PROGRAM_PROFILE: [&str; 4] = ["pc", "us,fr", ",bepo", "ctrl:nocaps"];

const PROGRAM_STRINGS: [&str; 5] = [
    "evdev",
    "|caps",
    "",
    "pc+us+fr(bepo):2+ctrl(nocaps):1+ctrl(nocaps):2",
    "",
];

/// A case, and the strings of its five components or its refusal.
enum Row {
    Strings(Case, [String; 5]),
    Refused(Case, u64, u64),
}

fn strings(component: &str, string: &str) -> [String; 5] {
    COMPONENTS.map(|c| {
        if c == component {
            string.into()
        } else {
            "".into()
        }
    })
}

fn symbols(rules: &str, profile: [&str; 4], string: &str) -> Row {
    let case = Case::text(rules, profile, ROOM);
    Row::Strings(case, strings("symbols", string))
}

fn layouts(count: usize) -> String {
    ["us", "fr", "de", "gb", "es"][..count].join(",")
}

fn table_rows() -> Vec<Row> {
    let mut rows = Vec::new();
    for (value, count, string) in ALL {
        let rules = format!("! model = symbols\n* = {value}\n");
        let layouts = layouts(*count);
        rows.push(symbols(&rules, ["pc", &layouts, "", ""], string));
    }
    for (values, string) in UPDATES {
        let set = |value: &&str| format!("! model = symbols\n* = {value}\n");
        let rules: String = values.iter().map(set).collect();
        rows.push(symbols(&rules, ["pc", "us", "", ""], string));
        let (rules, string) = (rules.replace('+', "|"), string.replace('+', "|"));
        rows.push(symbols(&rules, ["pc", "us", "", ""], &string));
    }
    for (forms, component, expected) in TABLES {
        for rules in *forms {
            for (profile, string) in *expected {
                let case = Case::text(rules, *profile, ROOM);
                rows.push(Row::Strings(case, strings(component, string)));
            }
        }
    }
    rows
}

fn example_rows() -> Vec<Row> {
    let single = "! layout = symbols\n* = pc+%l%(v)\n";
    let five = "! model = symbols\n* = abcde\n";
    let long = |length: usize| format!("! model = symbols\n* = {}\n", "x".repeat(length));
    let program = Case::text(PROGRAM, PROGRAM_PROFILE, ROOM);
    vec![
        symbols(single, ["", "us", "", ""], "pc+us"),
        symbols(single, ["", "us", "intl", ""], "pc+us(intl)"),
        symbols("! model = symbols\n* = %l[1]\n", ["", "us", "", ""], ""),
        symbols("! model = symbols\n* = %l\n", ["", "us,il", "", ""], ""),
        Row::Strings(Case::text(five, [""; 4], 5), strings("symbols", "abcde")),
        Row::Refused(Case::text(five, [""; 4], 4), 11, 0),
        symbols("", ["", &layouts(4), "", ""], ""),
        Row::Refused(Case::text("", ["", &layouts(5), "", ""], ROOM), 2, 2),
        symbols(&long(256), [""; 4], &"x".repeat(256)),
        Row::Refused(Case::text(&long(257), [""; 4], ROOM), 5, (1 << 32) + 2),
        symbols("", [""; 4], ""),
        Row::Strings(program, PROGRAM_STRINGS.map(String::from)),
    ]
}

/// Whether an answer is the one of the row.
fn fits(row: &Row, answer: &Answer) -> bool {
    match row {
        Row::Strings(_, strings) => {
            let joined = answer.texts.chunks(2).map(<[Vec<u8>]>::concat);
            answer.number == 0 && joined.eq(strings.iter().map(|s| s.as_bytes().to_vec()))
        }
        Row::Refused(_, number, place) => (answer.number, answer.place) == (*number, *place),
    }
}

fn compare(index: u64, row: &Row, tally: &mut Tally) {
    let (case, written) = match row {
        Row::Strings(case, strings) => (case, strings.join("\t")),
        Row::Refused(case, number, place) => (case, format!("refused {number} at {place}")),
    };
    let second = case.second();
    let library = call(case, 40, 0).answer();
    tally.count(&second);
    if fits(row, &second) && fits(row, &library) && complaints(case, &second).is_empty() {
        return;
    }
    tally.failures.push(Failure {
        index,
        case: case.clone(),
        written: Some(written),
    });
}

pub fn run() -> Tally {
    let mut tally = Tally::default();
    let rows = table_rows().into_iter().chain(example_rows());
    for (i, row) in rows.enumerate() {
        compare(i as u64 + 1, &row, &mut tally);
    }
    finish("tables and examples", tally)
}
