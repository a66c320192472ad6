//! Runs many cases over all cores, counts the answers, and prints each
//! disagreement made small.

use std::thread;
use std::time::Instant;

use crate::case::{answer_row, Case, BUNDLE};
use crate::check::{call, complaints};
use crate::library::takes;
use crate::second::Answer;
use crate::shrink::shrink;

/// At most this many disagreements of one part are made small and printed.
const PRINTED: usize = 3;

/// A case that the two resolvers answer otherwise, or that one of them answers
/// otherwise than is written.
pub struct Failure {
    pub index: u64,
    pub case: Case,
    pub written: Option<String>,
}

/// The cases of one part, or of all.
#[derive(Default)]
pub struct Tally {
    pub cases: u64,
    /// How often each number was answered.
    pub answers: [u64; 16],
    pub with_text: u64,
    pub with_both: u64,
    pub failures: Vec<Failure>,
}

impl Tally {
    pub fn sum(parts: Vec<Tally>) -> Tally {
        let mut all = Tally::default();
        for part in parts {
            all.add(part);
        }
        all
    }

    pub fn add(&mut self, other: Tally) {
        self.cases += other.cases;
        self.with_text += other.with_text;
        self.with_both += other.with_both;
        for (all, count) in self.answers.iter_mut().zip(other.answers) {
            *all += count;
        }
        self.failures.extend(other.failures);
    }

    pub fn count(&mut self, answer: &Answer) {
        self.cases += 1;
        self.answers[answer.number as usize] += 1;
        self.with_text += u64::from(answer.total() > 0);
        let both = |t: &[Vec<u8>]| !t[0].is_empty() && !t[1].is_empty();
        self.with_both += u64::from(answer.texts.chunks(2).any(both));
    }
}

/// Does the work for each index below `count`, spread over the cores.
pub fn spread<T: Default + Send>(count: u64, work: &(dyn Fn(u64, &mut T) + Sync)) -> Vec<T> {
    let cores = thread::available_parallelism().map_or(2, |n| n.get()) as u64;
    thread::scope(|scope| {
        let spawn = |first: u64| {
            scope.spawn(move || {
                let mut result = T::default();
                for index in (first..count).step_by(cores as usize) {
                    work(index, &mut result);
                }
                result
            })
        };
        let handles: Vec<_> = (0..cores).map(spawn).collect();
        let join = |handle: thread::ScopedJoinHandle<T>| handle.join().expect("a thread");
        handles.into_iter().map(join).collect()
    })
}

fn one(index: u64, case: Case, tally: &mut Tally) -> Answer {
    let answer = case.second();
    tally.count(&answer);
    if !complaints(&case, &answer).is_empty() {
        let written = None;
        tally.failures.push(Failure {
            index,
            case,
            written,
        });
    }
    answer
}

/// Compares one case, and every third one with some text also with a room of just
/// its total, one less, and one more.
fn with_rooms(index: u64, case: Case, tally: &mut Tally) {
    let answer = one(index, case.clone(), tally);
    if let (total @ 1.., 0) = (answer.total(), index % 3) {
        for room in [total - 1, total, total + 1] {
            one(index, case.with_room(room), tally);
        }
    }
}

/// Compares the cases of one part.
pub fn run(name: &str, count: u64, make: &(dyn Fn(u64) -> Case + Sync)) -> Tally {
    let work = |index: u64, tally: &mut Tally| with_rooms(index, make(index), tally);
    finish(name, Tally::sum(spread(count, &work)))
}

/// Compares a list of cases, with their own rooms only.
pub fn run_plain(name: &str, list: &[Case]) -> Tally {
    let work = |index: u64, tally: &mut Tally| {
        one(index, list[index as usize].clone(), tally);
    };
    finish(name, Tally::sum(spread(list.len() as u64, &work)))
}

/// Compares a list of cases.
pub fn run_list(name: &str, list: &[Case]) -> Tally {
    run(name, list.len() as u64, &|index| {
        list[index as usize].clone()
    })
}

/// The longest time, in milliseconds, that the library takes for one of the cases.
pub fn slowest(list: &[Case]) -> u128 {
    let time = |case: &Case| {
        let start = Instant::now();
        call(case, 40, 0);
        start.elapsed().as_millis()
    };
    list.iter().map(time).max().unwrap_or(0)
}

/// Prints the part's first disagreements, each made small.
pub fn finish(name: &str, mut tally: Tally) -> Tally {
    let found = tally.failures.len();
    if found > 0 {
        println!("{name}: {} cases, {found} disagreements", tally.cases);
    }
    tally.failures.sort_by_key(|failure| failure.index);
    let mut printed: Vec<Case> = Vec::new();
    for failure in tally.failures.iter().take(4 * PRINTED) {
        if printed.len() == PRINTED {
            break;
        }
        let case = small(&failure.case);
        if !printed.contains(&case) {
            print_failure(name, failure, &case);
            printed.push(case);
        }
    }
    tally
}

fn disagrees(case: &Case) -> bool {
    takes(&case.inputs[BUNDLE]) && !complaints(case, &case.second()).is_empty()
}

/// The length of the ten texts, in whatever room.
fn total(case: &Case) -> usize {
    case.with_room(usize::MAX).second().total()
}

/// The case made small while the resolvers disagree: with a plain room if it
/// can be, else with a room that is as much over or under the total.
fn small(case: &Case) -> Case {
    if !disagrees(case) {
        return case.clone();
    }
    let plain = [64, 4096, 65_536]
        .into_iter()
        .find(|&room| disagrees(&case.with_room(room)));
    let old = total(case);
    let smaller = |parts: &[Vec<u8>]| {
        let smaller = Case::of_parts(parts, case.room);
        let room = plain.unwrap_or_else(|| (case.room + total(&smaller)).saturating_sub(old));
        smaller.with_room(room)
    };
    let parts = shrink(case.parts(), &|parts| disagrees(&smaller(parts)));
    smaller(&parts)
}

fn print_failure(name: &str, failure: &Failure, small: &Case) {
    println!("disagreement in {name}, case {}:", failure.index);
    if let Some(written) = &failure.written {
        println!("  written: {written}");
        print_case(&failure.case);
    }
    if disagrees(small) {
        println!("  made small:");
        print_case(small);
    } else if failure.written.is_none() {
        println!("  not seen when called again alone:");
        print_case(small);
    }
}

/// Prints a case and both answers; very long answers are cut.
pub fn print_case(case: &Case) {
    let second = case.second();
    println!("  case:    {}", case.row());
    if !takes(&case.inputs[BUNDLE]) {
        println!("  second:  {}", answer_row(&second));
        return;
    }
    let library = call(case, 40, 0).answer();
    for (name, answer) in [("second: ", &second), ("library:", &library)] {
        let row = answer_row(answer);
        let cut = row.len().min(4000);
        let rest = if row.len() > cut { " (cut)" } else { "" };
        println!("  {name} {}{rest}", &row[..cut]);
    }
    for complaint in complaints(case, &second).iter().take(4) {
        println!("  library: {complaint}");
    }
}
