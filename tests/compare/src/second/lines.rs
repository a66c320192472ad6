//! Lines and words of a rules file.

use super::Bytes;

/// A line with its joined lines, under the number of its first.
pub struct Line {
    pub number: usize,
    pub heading: bool,
    pub bad_byte: bool,
    pub words: Vec<Bytes>,
}

/// With `cr_lf` (document 02, #103), a CR directly before LF belongs to the
/// line end.
pub fn split_lines(rules: &[u8], cr_lf: bool) -> Vec<Line> {
    let mut physical: Vec<&[u8]> = rules.split(|&b| b == b'\n').collect();
    let last = physical.len() - 1;
    for line in physical[..last].iter_mut().filter(|_| cr_lf) {
        *line = line.strip_suffix(b"\r").unwrap_or(line);
    }
    let mut lines = Vec::new();
    let mut next = 0;
    while next < physical.len() {
        let mut line = Line {
            number: next + 1,
            heading: false,
            bad_byte: false,
            words: Vec::new(),
        };
        loop {
            let ends_with_lf = next + 1 < physical.len();
            let joins = split_words(physical[next], ends_with_lf, &mut line);
            next += 1;
            if !joins {
                break;
            }
        }
        lines.push(line);
    }
    lines
}

/// Takes one physical line's words; tells whether the next one is joined to it.
fn split_words(physical: &[u8], ends_with_lf: bool, line: &mut Line) -> bool {
    let mut rest = physical;
    loop {
        while let [b' ' | b'\t', after @ ..] = rest {
            rest = after;
        }
        match rest {
            [] => return false,
            [b'/', b'/', ..] => return false,
            [b'\\'] if ends_with_lf => return true,
            [b'!', after @ ..] if !line.heading && line.words.is_empty() => {
                line.heading = true;
                rest = after;
            }
            _ => {
                let length = word_length(rest, ends_with_lf);
                let word = &rest[..length];
                line.bad_byte |= word.iter().any(|b| !(0x21..=0x7e).contains(b));
                line.bad_byte |= word.contains(&b'\\');
                line.words.push(word.to_vec());
                rest = &rest[length..];
            }
        }
    }
}

fn word_length(rest: &[u8], ends_with_lf: bool) -> usize {
    let joining = |at: usize| ends_with_lf && at + 1 == rest.len() && rest[at] == b'\\';
    (0..rest.len())
        .find(|&at| matches!(rest[at], b' ' | b'\t') || joining(at))
        .unwrap_or(rest.len())
}

/// Empty, or its last newline really ends a line.
pub fn ends_a_line(rules: &[u8], cr_lf: bool) -> bool {
    let count = rules.iter().filter(|&&b| b == b'\n').count();
    let last = split_lines(rules, cr_lf).pop().map(|line| line.number);
    rules.is_empty() || (rules.ends_with(b"\n") && last == Some(count + 1))
}
