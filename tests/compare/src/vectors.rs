//! The vectors. Both resolvers are compared with the written answers.

use crate::case::{answer_row, escape, number, unescape, Case, BUNDLE};
use crate::check::{check_complaints, complaints, Checked};
use crate::library::{takes, LANDED};
use crate::run::{finish, spread, Failure, Tally};
use crate::second::{self, Answer, Requests};

/// Files of cases, and the requests under which their answers were written.
const FILES: [(&str, &[u8], Requests); 7] = [
    (
        "base-edges.tsv",
        include_bytes!("../vectors/base-edges.tsv"),
        Requests::NONE,
    ),
    (
        "base-random.tsv",
        include_bytes!("../vectors/base-random.tsv"),
        Requests::NONE,
    ),
    (
        "base-changed.tsv",
        include_bytes!("../vectors/base-changed.tsv"),
        Requests::NONE,
    ),
    (
        "101.tsv",
        include_bytes!("../vectors/101.tsv"),
        Requests::ALL,
    ),
    (
        "103.tsv",
        include_bytes!("../vectors/103.tsv"),
        Requests::ALL,
    ),
    (
        "104.tsv",
        include_bytes!("../vectors/104.tsv"),
        Requests::ALL,
    ),
    (
        "105.tsv",
        include_bytes!("../vectors/105.tsv"),
        Requests::ALL,
    ),
];

const CHECKS: &[u8] = include_bytes!("../vectors/101-check.tsv");

fn fields(line: &[u8]) -> Vec<&[u8]> {
    line.split(|&b| b == b'\t').collect()
}

fn texts<const N: usize>(fields: &[&[u8]]) -> Option<[Vec<u8>; N]> {
    let texts: Option<Vec<Vec<u8>>> = fields.iter().map(|field| unescape(field)).collect();
    texts?.try_into().ok()
}

/// Eighteen fields of document 01: rules and a line's number, which become a lone
/// file and a place in it.
fn base_row(fields: &[&[u8]]) -> Option<(Case, Answer)> {
    let [rules, profile @ ..] = &texts::<5>(fields.get(..5)?)?;
    let profile: [&[u8]; 4] = std::array::from_fn(|i| profile[i].as_slice());
    let case = Case::new(rules, profile, number(fields[5])? as usize);
    let (number, line) = (number(fields.get(6)?)?, number(fields.get(7)?)?);
    let file = u64::from((3..=10).contains(&number));
    let answer = Answer {
        number,
        place: (file << 32) + line,
        texts: texts(&fields[8..])?,
    };
    Some((case, answer))
}

/// Twenty-two fields of document 02.
fn bundle_row(fields: &[&[u8]]) -> Option<(Case, Answer)> {
    let case = Case {
        inputs: texts(fields.get(..8)?)?,
        room: number(fields.get(8)?)? as usize,
    };
    let answer = Answer {
        number: number(fields.get(9)?)?,
        place: (number(fields.get(10)?)? << 32) + number(fields.get(11)?)?,
        texts: texts(&fields[12..])?,
    };
    Some((case, answer))
}

fn check_row(fields: &[&[u8]]) -> Option<(Case, Checked)> {
    let [bundle, home, extra, system, name] =
        texts(&[fields.get(..4)?, fields.get(8..)?].concat())?;
    let paths = [&home, &extra, &system].map(Vec::as_slice);
    let case = Case::bundled(bundle, paths, [b""; 4], number(fields[4])? as usize);
    let place = (number(fields[6])? << 32) + number(fields[7])?;
    Some((case, (number(fields[5])?, place, name)))
}

fn read<T>(
    name: &str,
    bytes: &[u8],
    row: impl Fn(&[&[u8]]) -> Option<T>,
) -> Result<Vec<T>, String> {
    let lines = bytes.strip_suffix(b"\n").unwrap_or(bytes);
    let lines = lines.split(|&b| b == b'\n').enumerate();
    let read = |(i, line)| row(&fields(line)).ok_or(format!("{name}: bad line {}", i + 1));
    lines.map(read).collect()
}

fn cases(name: &str, bytes: &[u8]) -> Result<Vec<(Case, Answer)>, String> {
    read(name, bytes, |fields| match fields.len() {
        18 => base_row(fields),
        _ => bundle_row(fields),
    })
}

/// Both resolvers against a written answer: the second under the requests for
/// which it was written, the library if it holds under those that have landed too.
fn compare((index, case, expected): (u64, &Case, &Answer), requests: Requests, tally: &mut Tally) {
    let differs = case.second_under(requests) != *expected;
    let due = takes(&case.inputs[BUNDLE]) && case.second() == *expected;
    if due {
        tally.count(expected);
    }
    if differs || (due && !complaints(case, expected).is_empty()) {
        tally.failures.push(Failure {
            index,
            case: case.clone(),
            written: Some(answer_row(expected)),
        });
    }
}

fn check_compare(index: u64, case: &Case, expected: &Checked, tally: &mut Tally) {
    let bundle = &case.inputs[BUNDLE];
    let differs = second::check(bundle, case.paths(), case.room, Requests::ALL) != *expected;
    let due = LANDED.bundles && second::check(bundle, case.paths(), case.room, LANDED) == *expected;
    tally.cases += u64::from(due);
    if differs || (due && !check_complaints(case, case.room, expected).is_empty()) {
        let (number, place, name) = expected;
        tally.failures.push(Failure {
            index,
            case: case.clone(),
            written: Some(format!("check {number} at {place}, {}", escape(name))),
        });
    }
}

pub fn run() -> Result<Tally, String> {
    let mut all = Tally::default();
    for (name, bytes, requests) in FILES {
        let rows = cases(name, bytes)?;
        let work = |index: u64, tally: &mut Tally| {
            let (case, expected) = &rows[index as usize];
            compare((index + 1, case, expected), requests, tally);
        };
        let tally = Tally::sum(spread(rows.len() as u64, &work));
        all.add(finish(name, tally));
    }
    let mut checks = Tally::default();
    let rows = read("101-check.tsv", CHECKS, check_row)?;
    for (i, (case, expected)) in rows.iter().enumerate() {
        check_compare(i as u64 + 1, case, expected, &mut checks);
    }
    all.add(finish("101-check.tsv", checks));
    Ok(all)
}

/// The second resolver alone against the written answers.
pub fn second_alone() -> Result<u64, String> {
    let mut differing = 0;
    let mut count = |name: &str, list: Vec<bool>| {
        let wrong = list.iter().filter(|agrees| !**agrees).count();
        println!("{name}: {} rows, {wrong} otherwise", list.len());
        for (i, _) in list.iter().enumerate().filter(|(_, agrees)| !**agrees) {
            println!("  row {}", i + 1);
        }
        differing += wrong as u64;
    };
    for (name, bytes, requests) in FILES {
        let rows = cases(name, bytes)?;
        let agrees = |(case, expected): &(Case, Answer)| case.second_under(requests) == *expected;
        count(name, rows.iter().map(agrees).collect());
    }
    let rows = read("101-check.tsv", CHECKS, check_row)?;
    let agrees = |(case, expected): &(Case, Checked)| {
        second::check(&case.inputs[BUNDLE], case.paths(), case.room, Requests::ALL) == *expected
    };
    count("101-check.tsv", rows.iter().map(agrees).collect());
    Ok(differing)
}
