//! Compares the library with a second resolver and with written answers.
//!
//! ```text
//! compare [--seed NUMBER] [--count NUMBER]
//! compare stock RULES LIST
//! compare show [bundle] SEED INDEX
//! compare second
//! ```
//!
//! `second` holds the second resolver alone to the written answers. The exit status
//! is 1 on any disagreement.

mod bundle_edges;
mod bundles;
mod cards;
mod case;
mod check;
mod damage;
mod edges;
mod generate;
mod laws;
mod library;
mod limits;
mod line_ends;
mod prng;
mod ranges;
mod run;
mod second;
mod shrink;
mod stock;
mod tables;
mod vectors;
mod words;

use std::env;
use std::process::ExitCode;
use std::time::Instant;

use library::LANDED;
use run::{print_case, run_list, Tally};

struct Settings {
    seed: u64,
    count: u64,
}

fn settings(arguments: &[String]) -> Result<Settings, String> {
    let mut settings = Settings {
        seed: 1,
        count: 120_000,
    };
    for pair in arguments.chunks(2) {
        let [name, value] = pair else {
            return Err(format!("{} needs a value", pair[0]));
        };
        match name.as_str() {
            "--seed" => settings.seed = number(value)?,
            "--count" => settings.count = number(value)?,
            _ => return Err(format!("unknown argument {name}")),
        }
    }
    Ok(settings)
}

fn number(text: &str) -> Result<u64, String> {
    text.parse().map_err(|e| format!("{text}: {e}"))
}

/// The numbers that are never answered: #101 drops 9 and brings the last four.
const NEVER: &[&str] = match LANDED.bundles {
    true => &["9"],
    false => &["12", "13", "14", "15"],
};

fn bundle_parts(seed: u64, count: u64) -> Vec<(&'static str, Tally)> {
    let make = |index| bundles::case(seed, index);
    let mut parts = vec![(
        "generated bundles",
        run::run("generated bundles", count, &make),
    )];
    for (name, list) in [
        ("broken bundles", bundle_edges::broken()),
        ("include lines", bundle_edges::lines()),
        ("include paths", bundle_edges::paths()),
        ("depths and loops", bundle_edges::depths()),
        ("groups across files", bundle_edges::groups()),
        ("sizes of bundles", bundle_edges::sizes()),
        ("fault orders of bundles", bundle_edges::fault_orders()),
    ] {
        parts.push((name, run_list(name, &list)));
    }
    let many = bundle_edges::many_readings();
    parts.push(("many readings", run_list("many readings", &many)));
    let slowest = run::slowest(&many);
    println!("compare: many readings: the slowest resolve takes {slowest} ms");
    parts
}

/// All parts. The number of disagreements.
fn compare(settings: &Settings) -> Result<u64, String> {
    let start = Instant::now();
    let (seed, count) = (settings.seed, settings.count);
    let generated = format!("generated from seed {seed}");
    let short = run::run("short files", edges::SHORT_FILES, &edges::short_file);
    let made = run::run(&generated, count, &|index| generate::case(seed, index));
    let with_cr = "short files with CR";
    let cr = run::run(with_cr, line_ends::SHORT_FILES, &line_ends::short_file);
    let mut parts = vec![
        ("vectors", vectors::run()?),
        ("tables and examples", tables::run()),
        ("short files", short),
        (with_cr, cr),
        (generated.as_str(), made),
    ];
    for (name, list) in [
        ("every byte", edges::bytes()),
        ("percent items", edges::percent_items()),
        ("signs and :all", edges::signs_and_all()),
        ("headings", edges::headings()),
        ("faulty lines", edges::faulty_lines()),
        ("line places", edges::line_places()),
        ("fault orders", edges::fault_orders()),
        ("cuts and flips", edges::cuts_and_flips()),
        ("limits", limits::all()),
        ("line ends", line_ends::everywhere()),
        ("options and ranges", ranges::all()),
    ] {
        parts.push((name, run_list(name, &list)));
    }
    if LANDED.bundles {
        parts.extend(bundle_parts(seed, count.div_ceil(4)));
    }
    let laws = laws::run(seed, count.div_ceil(8));
    let (cards, cards_broken) = cards::run(seed, count.div_ceil(4))?;
    print_counts(
        "cases",
        parts.iter().map(|(name, part)| (*name, part.cases)),
    );
    print_counts("laws", laws.iter().map(|law| (law.name, law.cases)));
    let all = Tally::sum(parts.into_iter().map(|(_, part)| part).collect());
    let numbers: Vec<String> = (0..16).map(|i: u8| i.to_string()).collect();
    let answers = numbers.iter().map(String::as_str).zip(all.answers);
    print_counts("answers", answers.clone());
    let never: Vec<&str> = answers.filter(|a| a.1 == 0).map(|a| a.0).collect();
    if never != NEVER {
        return Err(format!(
            "never answered: {}; expected: {}",
            never.join(", "),
            NEVER.join(", ")
        ));
    }
    println!(
        "compare: accepted with some text {}, with a base and additions in one component {}",
        all.with_text, all.with_both
    );
    let numbers: Vec<String> = cards.answers.keys().map(u64::to_string).collect();
    let answers = numbers.iter().map(String::as_str);
    print_counts("cards", answers.zip(cards.answers.values().copied()));
    let broken: u64 = laws.iter().map(|law| law.broken).sum();
    let disagreements = all.failures.len() as u64 + broken + cards_broken;
    println!(
        "compare: {} cases, {disagreements} disagreements, {} seconds",
        all.cases + cards.cases + laws.iter().map(|law| law.cases).sum::<u64>(),
        start.elapsed().as_secs()
    );
    Ok(disagreements)
}

fn print_counts<'a>(what: &str, counts: impl Iterator<Item = (&'a str, u64)>) {
    let list: Vec<String> = counts.map(|(name, n)| format!("{name}: {n}")).collect();
    println!("compare: {what}: {}", list.join(", "));
}

fn chosen(arguments: &[String]) -> Result<u64, String> {
    let words: Vec<&str> = arguments.iter().map(String::as_str).collect();
    match words.as_slice() {
        ["stock", rules, list] => stock::run(rules, list),
        ["show", seed, index] => {
            print_case(&generate::case(number(seed)?, number(index)?));
            Ok(0)
        }
        ["show", "bundle", seed, index] => {
            print_case(&bundles::case(number(seed)?, number(index)?));
            Ok(0)
        }
        ["second"] => vectors::second_alone(),
        _ => compare(&settings(arguments)?),
    }
}

fn main() -> ExitCode {
    let arguments: Vec<String> = env::args().skip(1).collect();
    match chosen(&arguments) {
        Ok(0) => ExitCode::SUCCESS,
        Ok(_) => ExitCode::FAILURE,
        Err(problem) => {
            eprintln!("compare: {problem}");
            ExitCode::from(2)
        }
    }
}
