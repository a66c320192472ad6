//! Makes a case smaller while it still disagrees: drops lines, words, fields
//! and bytes.

use std::time::{Duration, Instant};

/// Smaller cases are tried for this long at most.
const LONGEST: Duration = Duration::from_secs(10);
/// Two words at once are dropped only of inputs with fewer words than this.
const FEW_WORDS: usize = 60;

/// Tells whether two neighbouring bytes belong to different units.
type Cut = fn(u8, u8) -> bool;

fn blank(byte: u8) -> bool {
    b" \t\n".contains(&byte)
}

const LINES: Cut = |before, _| before == b'\n';
const WORDS: [Cut; 2] = [|before, _| blank(before), |_, behind| blank(behind)];
const FIELDS: Cut = |before, _| before == b',';
const BYTES: Cut = |_, _| true;

/// Where the units of an input begin, and the input's end.
fn cuts(bytes: &[u8], cut: Cut) -> Vec<usize> {
    let mut list = vec![0];
    list.extend((1..bytes.len()).filter(|&i| cut(bytes[i - 1], bytes[i])));
    list.push(bytes.len());
    list
}

struct Shrink<'a> {
    inputs: Vec<Vec<u8>>,
    still: &'a dyn Fn(&[Vec<u8>]) -> bool,
    end: Instant,
}

impl Shrink<'_> {
    fn over(&self) -> bool {
        Instant::now() > self.end
    }

    fn attempt(&mut self, at: usize, parts: &[&[u8]]) -> bool {
        let smaller = parts.concat();
        if smaller.len() >= self.inputs[at].len() {
            return false;
        }
        let old = std::mem::replace(&mut self.inputs[at], smaller);
        let holds = (self.still)(&self.inputs);
        if !holds {
            self.inputs[at] = old;
        }
        holds
    }

    /// Drops runs of units, from long to short.
    fn drop_units(&mut self, at: usize, cut: Cut) -> bool {
        let mut shrunk = false;
        let mut units = cuts(&self.inputs[at], cut);
        let mut run = units.len() - 1;
        while run > 0 {
            let mut first = 0;
            while first + 1 < units.len() && !self.over() {
                let last = (first + run).min(units.len() - 1);
                let bytes = self.inputs[at].clone();
                if self.attempt(at, &[&bytes[..units[first]], &bytes[units[last]..]]) {
                    shrunk = true;
                    units = cuts(&self.inputs[at], cut);
                } else {
                    first += run;
                }
            }
            run /= 2;
        }
        shrunk
    }

    /// Drops two words at once, such as a heading's item and a rule's word.
    fn drop_pairs(&mut self, at: usize, cut: Cut) -> bool {
        let mut shrunk = false;
        let (mut one, mut two) = (0, 1);
        let mut units = cuts(&self.inputs[at], cut);
        while units.len() <= FEW_WORDS && one + 2 < units.len() && !self.over() {
            let bytes = self.inputs[at].clone();
            let between = &bytes[units[one + 1]..units[two]];
            if self.attempt(
                at,
                &[&bytes[..units[one]], between, &bytes[units[two + 1]..]],
            ) {
                shrunk = true;
                units = cuts(&self.inputs[at], cut);
                two = one;
            }
            two += 1;
            if two + 1 >= units.len() {
                one += 1;
                two = one + 1;
            }
        }
        shrunk
    }

    fn pass(&mut self) -> bool {
        let mut shrunk = false;
        for at in 0..self.inputs.len() {
            for cut in [LINES, WORDS[0], WORDS[1], FIELDS, BYTES] {
                shrunk |= self.drop_units(at, cut);
            }
        }
        shrunk
    }

    fn pairs_pass(&mut self) -> bool {
        let mut shrunk = false;
        for at in 0..self.inputs.len() {
            for cut in WORDS {
                shrunk |= self.drop_pairs(at, cut);
            }
        }
        shrunk
    }
}

/// The smallest inputs found for which `still` holds.
pub fn shrink(inputs: Vec<Vec<u8>>, still: &dyn Fn(&[Vec<u8>]) -> bool) -> Vec<Vec<u8>> {
    let mut shrink = Shrink {
        inputs,
        still,
        end: Instant::now() + LONGEST,
    };
    while shrink.pass() || shrink.pairs_pass() {}
    shrink.inputs
}
