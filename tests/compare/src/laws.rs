//! Laws between calls of the library: joined first files, options in other
//! order, includes written out, LF made CR LF, a call after another call, and two
//! threads at once.

use std::collections::HashSet;
use std::sync::Barrier;
use std::thread;

use crate::bundles;
use crate::case::{answer_row, escape, Case, BUNDLE, OPTIONS};
use crate::check::{call, complaints};
use crate::generate::{self, valid_rows, write};
use crate::library::LANDED;
use crate::prng::Prng;
use crate::run::spread;
use crate::second::bundle::{pack, unpack, written_path};
use crate::second::{self, Answer, Text};
use crate::shrink::shrink;
use crate::words::{self, GROUPS, LATER_GROUPS};

enum Outcome {
    /// The law says nothing here.
    Skipped,
    Holds,
    /// What was answered.
    Broken(Vec<String>),
}

/// What a law speaks of: a case, and what differs in another.
#[derive(Clone)]
struct Pair {
    case: Case,
    other: Vec<Vec<u8>>,
}

struct Law {
    name: &'static str,
    /// What the other inputs are.
    other: &'static str,
    make: fn(&mut Prng) -> Pair,
    look: fn(&Pair) -> Outcome,
}

const LAWS: [Law; 3] = [
    Law {
        name: "joined files",
        other: "second file",
        make: make_joined,
        look: joined,
    },
    Law {
        name: "options in other order",
        other: "other options",
        make: make_options,
        look: options,
    },
    Law {
        name: "call after a call",
        other: "case between",
        make: make_after,
        look: after,
    },
];

/// Once #103 has landed.
const LINE_ENDS: Law = Law {
    name: "LF made CR LF",
    other: "files to change",
    make: make_line_ends,
    look: line_ends,
};

/// Once #101 has landed.
const WRITTEN_OUT: Law = Law {
    name: "includes written out",
    other: "",
    make: make_written_out,
    look: written_out,
};

/// The case with its first file changed.
fn with_first(case: &Case, change: impl Fn(&[u8]) -> Vec<u8>) -> Option<Case> {
    let files = unpack(&case.inputs[BUNDLE])?;
    let first = change(files[0].1);
    let mut files: Vec<(&[u8], &[u8])> = files.clone();
    files[0].1 = &first;
    let mut changed = case.clone();
    changed.inputs[BUNDLE] = pack(&files);
    Some(changed)
}

// Joined files.

fn make_joined(rng: &mut Prng) -> Pair {
    let profile = words::profile(rng);
    let everywhere: Vec<&str> = GROUPS.iter().chain(LATER_GROUPS).copied().collect();
    let shelf = bundles::shelf(rng, &profile);
    let sets = rng.below(4);
    let mut rows = valid_rows(rng, &profile, GROUPS, &everywhere, sets);
    shelf.include_some(rng, &mut rows);
    let mut first = write(rng, &rows);
    if !first.is_empty() && !first.ends_with(b"\n") {
        first.push(b'\n');
    }
    if rng.chance(20) {
        first.extend(
            rng.pick(&["//\\\n", "\n", " // x \\\n", "\\\n\n", "\\\n"])
                .bytes(),
        );
    }
    let named = if rng.chance(5) {
        &everywhere
    } else {
        LATER_GROUPS
    };
    let sets = rng.below(4);
    let mut rows = valid_rows(rng, &profile, LATER_GROUPS, named, sets);
    shelf.include_some(rng, &mut rows);
    let mut second = write(rng, &rows);
    if rng.chance(10) {
        to_a_limit(rng, &mut first, &mut second);
    }
    let room = [4096, 65_536, 300][rng.below(3)];
    let case = shelf.case(&first, &profile.texts(), room);
    let other = vec![second];
    Pair { case, other }
}

/// Puts group lines or blank lines before both, so that the joined file is at
/// a limit or beyond it.
fn to_a_limit(rng: &mut Prng, first: &mut Vec<u8>, second: &mut Vec<u8>) {
    let defined = |rules: &[u8]| {
        let case = Case::new(rules, [b""; 4], 0);
        read(&case).map_or(0, |text| text.defined().len())
    };
    let in_groups = rng.chance(50);
    let (most, there): (usize, usize) = if in_groups {
        (64, defined(first) + defined(second))
    } else {
        (65_536, first.len() + second.len())
    };
    let more = (most + 2).saturating_sub(there + rng.below(4));
    let split = rng.below(more + 1);
    let line = |i: usize| match in_groups {
        true => format!("! $of{i} = us pc\n"),
        false => "\n".into(),
    };
    for (rules, range) in [(first, 0..split), (second, split..more)] {
        let lines: String = range.map(line).collect();
        rules.splice(0..0, lines.into_bytes());
    }
}

fn read(case: &Case) -> Option<Text> {
    second::read(&case.inputs[BUNDLE], case.paths(), LANDED).ok()
}

/// The first file, which no include names if the bundle is accepted: naming it
/// would end in 14.
fn first_file(case: &Case) -> Option<&[u8]> {
    Some(unpack(&case.inputs[BUNDLE])?[0].1)
}

/// What the joined file must answer, if the law speaks of these files.
fn joined_answer(first: &Case, second: &Case, one: &Answer, two: &Answer) -> Option<Answer> {
    let (text_one, text_two) = (read(first)?, read(second)?);
    let (first, second) = (first_file(first)?, first_file(second)?);
    let defined = text_one.defined();
    let groups = defined.len() + text_two.defined().len();
    let premises = second::ends_a_line(first, LANDED.cr_lf)
        && defined.is_disjoint(&text_two.named())
        && groups <= 64
        && first.len() + second.len() <= 65_536
        && (one.number, two.number) == (0, 0);
    if !premises {
        return None;
    }
    let mut answer = Answer::default();
    for base in [0, 2, 4, 6, 8] {
        let from = if one.texts[base].is_empty() { two } else { one };
        answer.texts[base] = from.texts[base].clone();
        let additions = base + 1;
        answer.texts[additions] = [one.texts[additions].as_slice(), &two.texts[additions]].concat();
    }
    Some(answer)
}

fn joined(pair: &Pair) -> Outcome {
    let (first, behind, room) = (&pair.case, &pair.other[0], pair.case.room);
    let second = with_first(first, |_| behind.clone());
    let whole = with_first(first, |bytes| [bytes, behind].concat());
    let (Some(second), Some(whole)) = (second, whole) else {
        return Outcome::Skipped;
    };
    let one = call(first, 40, 1).answer();
    let two = call(&second, 40, 1).answer();
    let Some(wanted) = joined_answer(first, &second, &one, &two) else {
        return Outcome::Skipped;
    };
    if wanted.total() > room.min(1 << 20) {
        return Outcome::Skipped;
    }
    if complaints(&whole, &wanted).is_empty() {
        return Outcome::Holds;
    }
    let seen = call(&whole, 40, 1).answer();
    Outcome::Broken(vec![
        format!("first:  {}", answer_row(&one)),
        format!("second: {}", answer_row(&two)),
        format!("joined: {}", answer_row(&seen)),
    ])
}

// Options in other order.

fn make_options(rng: &mut Prng) -> Pair {
    let (seed, index) = (rng.next(), rng.next());
    let mut case = generate::any_case(seed, index);
    let options = &mut case.inputs[OPTIONS];
    if rng.chance(40) {
        let list = "ctrl:nocaps,caps:digits_row,misc:typo,o1,o2";
        options.extend(b",");
        options.extend(list.bytes());
    }
    let comma = |b: &u8| *b == b',';
    let mut others: Vec<&[u8]> = options.split(comma).collect();
    for _ in 0..rng.below(6) {
        let copy = others[rng.below(others.len())];
        others.push(if rng.chance(30) { b"" } else { copy });
    }
    rng.shuffle(&mut others);
    let other = vec![others.join(&b","[..])];
    Pair { case, other }
}

fn options(pair: &Pair) -> Outcome {
    let (options, others) = (&pair.case.inputs[OPTIONS], &pair.other[0]);
    let fields = |text: &Vec<u8>| -> Vec<Vec<u8>> {
        let fields = text.split(|&b| b == b',').map(<[u8]>::to_vec);
        fields.filter(|field| !field.is_empty()).collect()
    };
    let (one, two) = (fields(options), fields(others));
    let within = |text: &Vec<u8>, list: &[Vec<u8>]| text.len() <= 1024 && list.len() <= 64;
    let same: HashSet<&Vec<u8>> = one.iter().collect();
    if !within(options, &one) || !within(others, &two) || same != two.iter().collect() {
        return Outcome::Skipped;
    }
    let mut reordered = pair.case.clone();
    reordered.inputs[OPTIONS] = others.clone();
    let (one, two) = (call(&pair.case, 44, 9), call(&reordered, 44, 9));
    if one.same(&two) {
        return Outcome::Holds;
    }
    Outcome::Broken(vec![
        format!("options: {}", answer_row(&one.answer())),
        format!("others:  {}", answer_row(&two.answer())),
    ])
}

// Includes written out.

fn make_written_out(rng: &mut Prng) -> Pair {
    let mut case = bundles::case(rng.next(), rng.next());
    if let Some(files) = unpack(&case.inputs[BUNDLE]) {
        let plain = |rules: &[u8]| -> Vec<u8> {
            let lines: Vec<&[u8]> = rules.split(|&b| b == b'\n').collect();
            let unjoined = lines.iter().map(|line| match line.strip_suffix(b"\\") {
                Some(joined) => [joined, b" "].concat(),
                None => [line, &b"\n"[..]].concat(),
            });
            unjoined.collect::<Vec<Vec<u8>>>().concat()
        };
        let files: Vec<(&[u8], Vec<u8>)> = files.iter().map(|f| (f.0, plain(f.1))).collect();
        case.inputs[BUNDLE] = pack(&files);
    }
    let other = Vec::new();
    Pair { case, other }
}

/// The file with the named files in place of its include lines, each ended by LF;
/// none where a line is joined, an include finds nothing or it grows too long.
fn flat(case: &Case, file: &[u8], depth: usize) -> Option<Vec<u8>> {
    let files = unpack(&case.inputs[BUNDLE])?;
    let mut text = Vec::new();
    for line in file.split(|&b| b == b'\n') {
        let heading = line.trim_ascii_start().strip_prefix(b"!");
        let mut words = heading.unwrap_or_default().split(|b| b" \t\r".contains(b));
        let mut word = || words.find(|word| !word.is_empty());
        if word() == Some(b"include") {
            let path = written_path(word()?, case.paths())?;
            let included = files.iter().find(|file| file.0 == path)?;
            let deeper = depth.checked_sub(1)?;
            text.extend(flat(case, included.1, deeper)?);
        } else {
            text.extend(line);
            text.push(b'\n');
        }
        let joined = line.ends_with(b"\\") || line.ends_with(b"\\\r");
        if joined || text.len() > 65_536 {
            return None;
        }
    }
    Some(text)
}

/// Where the lines are good, the written-out file gives the same.
fn written_out(pair: &Pair) -> Outcome {
    let seen = call(&pair.case, 44, 8);
    let number = seen.answer().number;
    let files = unpack(&pair.case.inputs[BUNDLE]).unwrap_or_default();
    if ![0, 11].contains(&number) || files.len() < 2 {
        return Outcome::Skipped;
    }
    let Some(text) = flat(&pair.case, files[0].1, 5) else {
        return Outcome::Skipped;
    };
    let lone = Case::new(&text, pair.case.profile(), pair.case.room);
    let out = call(&lone, 44, 8);
    if seen.same(&out) {
        return Outcome::Holds;
    }
    Outcome::Broken(vec![
        format!("text:   {}", escape(&text)),
        format!("bundle: {}", answer_row(&seen.answer())),
        format!("text's: {}", answer_row(&out.answer())),
    ])
}

// LF made CR LF.

/// Of several files some are changed: those with a bit in the other input.
fn make_line_ends(rng: &mut Prng) -> Pair {
    let (seed, index) = (rng.next(), rng.next());
    let mut case = generate::any_case(seed, index);
    if let Some(files) = unpack(&case.inputs[BUNDLE]) {
        let plain = |rules: &[u8]| -> Vec<u8> {
            let mut rules = rules.to_vec();
            rules.retain(|&b| b != b'\r');
            rules
        };
        let files: Vec<(&[u8], Vec<u8>)> = files.iter().map(|f| (f.0, plain(f.1))).collect();
        case.inputs[BUNDLE] = pack(&files);
    }
    let which = if rng.chance(60) {
        0xff
    } else {
        rng.next() as u8
    };
    let other = vec![vec![which]];
    Pair { case, other }
}

fn line_ends(pair: &Pair) -> Outcome {
    let Some(files) = unpack(&pair.case.inputs[BUNDLE]) else {
        return Outcome::Skipped;
    };
    let which = pair.other[0].first().copied().unwrap_or(0xff);
    let mut changed = Vec::new();
    for (i, (name, bytes)) in files.iter().enumerate() {
        let mut changed_bytes = bytes.to_vec();
        if which >> (i % 8) & 1 == 1 {
            let lines: Vec<&[u8]> = bytes.split(|&b| b == b'\n').collect();
            changed_bytes = lines.join(&b"\r\n"[..]);
        }
        if bytes.contains(&b'\r') || (bytes.len() <= 65_536 && changed_bytes.len() > 65_536) {
            return Outcome::Skipped;
        }
        changed.push((*name, changed_bytes));
    }
    let mut other = pair.case.clone();
    other.inputs[BUNDLE] = pack(&changed);
    let (one, two) = (call(&pair.case, 44, 6), call(&other, 44, 6));
    if one.same(&two) {
        return Outcome::Holds;
    }
    Outcome::Broken(vec![
        format!("LF:    {}", answer_row(&one.answer())),
        format!("CR LF: {}", answer_row(&two.answer())),
    ])
}

// A call after a call.

fn make_after(rng: &mut Prng) -> Pair {
    let (seed, index) = (rng.next(), rng.next());
    let case = generate::any_case(seed, index);
    let mut between = generate::any_case(seed, index + 1);
    if rng.chance(60) {
        between.inputs[BUNDLE] = case.inputs[BUNDLE].clone();
    }
    let other = between.parts();
    Pair { case, other }
}

fn after(pair: &Pair) -> Outcome {
    let other = Case::of_parts(&pair.other, pair.case.room);
    let alone = call(&pair.case, 44, 3);
    let between = call(&other, 44, 3);
    let again = call(&pair.case, 44, 3);
    if alone.same(&again) {
        return Outcome::Holds;
    }
    Outcome::Broken(vec![
        format!("alone:   {}", answer_row(&alone.answer())),
        format!("between: {}", answer_row(&between.answer())),
        format!("again:   {}", answer_row(&again.answer())),
    ])
}

// Running them.

/// Cases in which a law held or was broken, and the broken ones.
#[derive(Default)]
struct Found {
    cases: u64,
    broken: Vec<(u64, Pair)>,
}

/// How often a law was looked at, and how often it was broken.
pub struct Looked {
    pub name: &'static str,
    pub cases: u64,
    pub broken: u64,
}

impl Looked {
    fn new(name: &'static str, cases: u64, broken: usize) -> Looked {
        let broken = broken as u64;
        if broken > 0 {
            println!("law, {name}: {cases} cases, {broken} disagreements");
        }
        Looked {
            name,
            cases,
            broken,
        }
    }
}

fn run_law(law: &Law, seed: u64, count: u64) -> Looked {
    let work = |index: u64, found: &mut Found| {
        let pair = (law.make)(&mut Prng::new(seed ^ 0x1a75, index));
        match (law.look)(&pair) {
            Outcome::Skipped => {}
            Outcome::Holds => found.cases += 1,
            Outcome::Broken(_) => {
                found.cases += 1;
                found.broken.push((index, pair));
            }
        }
    };
    let mut all = Found::default();
    for found in spread(count, &work) {
        all.cases += found.cases;
        all.broken.extend(found.broken);
    }
    all.broken.sort_by_key(|broken| broken.0);
    let looked = Looked::new(law.name, all.cases, all.broken.len());
    for (index, pair) in all.broken.iter().take(3) {
        println!("law broken, {}, case {index}, made small:", law.name);
        print_broken(law, pair);
    }
    looked
}

fn print_broken(law: &Law, pair: &Pair) {
    let others = pair.other.len();
    let of = |inputs: &[Vec<u8>]| Pair {
        case: Case::of_parts(&inputs[others..], pair.case.room),
        other: inputs[..others].to_vec(),
    };
    let still = |inputs: &[Vec<u8>]| matches!((law.look)(&of(inputs)), Outcome::Broken(_));
    let inputs = [pair.other.clone(), pair.case.parts()].concat();
    let small = of(&shrink(inputs, &still));
    println!("  case: {}", small.case.row());
    for other in &small.other {
        println!("  {}: {}", law.other, escape(other));
    }
    if let Outcome::Broken(answers) = (law.look)(&small) {
        for answer in answers {
            println!("  {answer}");
        }
    }
}

/// Two threads at once, in opposite orders, against one thread alone.
fn two_threads(seed: u64, count: u64) -> Looked {
    let cases: Vec<Case> = (0..count)
        .map(|index| generate::any_case(seed ^ 0x7357, index))
        .collect();
    let alone: Vec<Answer> = cases.iter().map(|c| call(c, 40, 5).answer()).collect();
    let barrier = Barrier::new(2);
    let differing = |backward: bool| {
        let mut order: Vec<usize> = (0..cases.len()).collect();
        if backward {
            order.reverse();
        }
        barrier.wait();
        let differs = |i: &usize| !complaints(&cases[*i], &alone[*i]).is_empty();
        order.into_iter().filter(differs).collect::<Vec<usize>>()
    };
    let mut found = thread::scope(|scope| {
        let other = scope.spawn(|| differing(true));
        let mut found = differing(false);
        found.extend(other.join().expect("a thread"));
        found
    });
    found.sort_unstable();
    let looked = Looked::new("two threads at once", 2 * count, found.len());
    for i in found.into_iter().take(3) {
        println!("  case:  {}", cases[i].row());
        println!("  alone: {}", answer_row(&alone[i]));
    }
    looked
}

pub fn run(seed: u64, count: u64) -> Vec<Looked> {
    let written_out = LANDED.bundles.then_some(&WRITTEN_OUT);
    let line_ends = LANDED.cr_lf.then_some(&LINE_ENDS);
    let laws = LAWS.iter().chain(written_out).chain(line_ends);
    let mut all: Vec<Looked> = laws.map(|law| run_law(law, seed, count)).collect();
    all.push(two_threads(seed, count));
    all
}
