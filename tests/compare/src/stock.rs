//! A real rules file with profiles made of the names in its list file.

use std::fs;

use crate::case::{escape, Case};
use crate::prng::Prng;
use crate::run::run_plain;

const ROOM: usize = 65_536;
/// How many profiles of several layouts are made.
const SEVERAL: usize = 400;

/// The names of a list file; variants with their layouts.
#[derive(Default)]
struct Names {
    models: Vec<String>,
    layouts: Vec<String>,
    variants: Vec<(String, String)>,
    options: Vec<String>,
}

fn read_names(list: &str) -> Names {
    let mut names = Names::default();
    let mut section = "";
    for line in list.lines() {
        if let Some(name) = line.strip_prefix('!') {
            section = name.trim();
            continue;
        }
        let mut words = line.split_whitespace();
        let Some(name) = words.next().map(String::from) else {
            continue;
        };
        match section {
            "model" => names.models.push(name),
            "layout" => names.layouts.push(name),
            "variant" => {
                let layout = words.next().unwrap_or("").trim_end_matches(':');
                names.variants.push((name, layout.into()));
            }
            "option" => names.options.push(name),
            _ => {}
        }
    }
    names
}

/// Up to `most` names of the option section.
fn some_options(rng: &mut Prng, names: &Names, most: usize) -> String {
    let mut list: Vec<&str> = Vec::new();
    for _ in 0..rng.below(most + 1) {
        list.push(&names.options[rng.below(names.options.len())]);
    }
    list.join(",")
}

fn some_model<'a>(rng: &mut Prng, names: &'a Names) -> &'a str {
    if rng.chance(50) {
        return "pc105";
    }
    &names.models[rng.below(names.models.len())]
}

fn profiles(names: &Names) -> Vec<[String; 4]> {
    let mut rng = Prng::new(1, 1);
    let mut list = Vec::new();
    for model in &names.models {
        list.push([model, "us", "", ""].map(String::from));
    }
    for layout in &names.layouts {
        let model = some_model(&mut rng, names).to_string();
        let options = some_options(&mut rng, names, 2);
        list.push([model, layout.clone(), String::new(), options]);
    }
    for (variant, layout) in &names.variants {
        let model = some_model(&mut rng, names).to_string();
        let options = some_options(&mut rng, names, 2);
        list.push([model, layout.clone(), variant.clone(), options]);
    }
    for option in &names.options {
        list.push(["pc105", "us", "", option].map(String::from));
    }
    for _ in 0..SEVERAL {
        list.push(several(&mut rng, names));
    }
    list
}

fn several(rng: &mut Prng, names: &Names) -> [String; 4] {
    let (mut layouts, mut variants) = (Vec::new(), Vec::new());
    for _ in 0..rng.between(2, 4) {
        if rng.chance(50) {
            let (variant, layout) = &names.variants[rng.below(names.variants.len())];
            layouts.push(layout.as_str());
            variants.push(variant.as_str());
        } else {
            layouts.push(&names.layouts[rng.below(names.layouts.len())]);
            variants.push("");
        }
    }
    let model = some_model(rng, names).to_string();
    let options = some_options(rng, names, 8);
    [model, layouts.join(","), variants.join(","), options]
}

/// The number of disagreements and refusals.
pub fn run(path: &str, list: &str) -> Result<u64, String> {
    let read = |path: &str| fs::read(path).map_err(|e| format!("{path}: {e}"));
    let rules = read(path)?;
    let names = read_names(&String::from_utf8_lossy(&read(list)?));
    let lists = [names.models.len(), names.layouts.len()];
    if lists.contains(&0) || names.variants.is_empty() || names.options.is_empty() {
        return Err(format!("{list}: a section has no names"));
    }
    let make = |profile: [String; 4]| {
        let profile = profile.each_ref().map(String::as_bytes);
        Case::new(&rules, profile, ROOM)
    };
    let cases: Vec<Case> = profiles(&names).into_iter().map(make).collect();
    let tally = run_plain("stock", &cases);
    let (refused, found) = (tally.cases - tally.answers[0], tally.failures.len());
    for case in cases.iter().filter(|c| c.second().number != 0).take(3) {
        let profile = case.profile().join(&b' ');
        println!("{path}: refused: {}", escape(&profile));
    }
    println!(
        "{path}: {} models, {} layouts, {} variants, {} options",
        lists[0],
        lists[1],
        names.variants.len(),
        names.options.len()
    );
    println!(
        "{path}: {} profiles, {found} disagreements, {refused} refused",
        tally.cases
    );
    Ok(found as u64 + refused)
}
