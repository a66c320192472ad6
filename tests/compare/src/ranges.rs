//! Listed cases of options and ranges: rules of sets with and without an option
//! column, at several layouts, with the options in several orders.

use crate::case::Case;

const ROOM: usize = 1024;

const HEADINGS: &[&str] = &[
    "layout[any] option",
    "option layout[any]",
    "layout[later] option",
    "option variant[any]",
    "variant[later] layout[later] option",
    "model option layout[any]",
    "layout[first] option",
    "option layout[2]",
    "layout option",
    "option layout[single]",
    "option",
    "layout[any]",
    "variant[later]",
    "model layout[any]",
];

const LAYOUTS: [&str; 6] = ["us", "us,fr", "fr,us,us", "us,,fr", "fr,fr,us,de", ",us"];
const OPTIONS: [&str; 7] = ["", "o1", "o2,o1", "o1,o2", "o2,o2,,o1", "zz", "zz,o1,us"];
/// Words for one layout and one option, and values with and without the layout's number.
const RULES: [(&str, &str, &str, &str); 6] = [
    ("us", "o1", "p%i", "p"),
    ("*", "o2", "+q%l[%i]", "+q"),
    ("fr", "*", "r%i+s%i", "r+s"),
    ("$g", "$g", "|t%i", "|t:all"),
    ("*", "*", "%v[%i]", "%v"),
    ("*", "o1", "%+l[%i]:%i", "u:all"),
];

fn rule(heading: &str, which: usize, components: usize) -> String {
    let (layout, option, ranged, plain) = RULES[which % 6];
    let word = |item: &str| match item {
        "model" => "*",
        "option" => option,
        // Variants are the layouts' names in these profiles.
        _ => layout,
    };
    let words: Vec<&str> = heading.split(' ').map(word).collect();
    let index_word = ["any", "later", "first", "single"]
        .iter()
        .any(|w| heading.contains(w));
    let value = if index_word { ranged } else { plain };
    let values = [value, ["+w", "k"][which % 2]];
    format!("{} = {}\n", words.join(" "), values[..components].join(" "))
}

pub fn all() -> Vec<Case> {
    let mut list = Vec::new();
    for heading in HEADINGS {
        for number in 0..6 * 6 * 6 {
            for (turn, layouts) in LAYOUTS.iter().enumerate() {
                let at = 5 * number + 7 * turn;
                let options = OPTIONS[at % 7];
                let components = 1 + at % 2;
                let right = ["symbols", "symbols types"][at % 2];
                let mut rules = format!("! $g = us o2\n! {heading} = {right}\n");
                for which in [number, number / 6, number / 36] {
                    rules += &rule(heading, which, components);
                }
                if at % 5 == 0 {
                    rules += "! layout[any] = symbols\n* = +%l[%i]\n* = z\n";
                }
                list.push(Case::text(&rules, ["pc", layouts, layouts, options], ROOM));
            }
        }
    }
    list
}
