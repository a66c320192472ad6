//! The second resolver. It reads a bundle's first file, and each file where an
//! include line names it, into groups and sets, and then walks these for one
//! profile. Each component is kept twice: as one string under the stepwise
//! update, and as base and additions.

pub mod bundle;
pub mod cards;
mod lines;
mod values;

use std::collections::{HashMap, HashSet};
use std::rc::Rc;

pub use lines::ends_a_line;
use lines::{split_lines, Line};
use values::{expand, read_value, Value};

const MAX_TEXT: usize = 1024;
const MAX_FIELD: usize = 64;
const MAX_LAYOUTS: usize = 4;
const MAX_OPTIONS: usize = 64;
const MAX_FILE: usize = 65_536;
const MAX_WORD: usize = 256;
const MAX_GROUPS: usize = 64;
const MAX_TOTAL: usize = 1_048_576;
const MAX_DEPTH: usize = 5;

/// The components in the order of the answer.
pub const COMPONENTS: [&str; 5] = ["keycodes", "types", "compat", "symbols", "geometry"];

type Bytes = Vec<u8>;

/// Number 0 is accepted; the texts are base and additions of each component.
#[derive(Clone, Debug, Default, PartialEq, Eq)]
pub struct Answer {
    pub number: u64,
    pub place: u64,
    pub texts: [Bytes; 10],
}

impl Answer {
    pub fn total(&self) -> usize {
        self.texts.iter().map(Vec::len).sum()
    }
}

/// The requests of document 02 that change answers: #101, #103 and #105. With one
/// off, answers are as before it.
#[derive(Clone, Copy)]
pub struct Requests {
    pub bundles: bool,
    pub cr_lf: bool,
    pub order: bool,
}

impl Requests {
    pub const NONE: Requests = Requests {
        bundles: false,
        cr_lf: false,
        order: false,
    };
    pub const ALL: Requests = Requests {
        bundles: true,
        cr_lf: true,
        order: true,
    };
}

#[derive(Clone, Debug, PartialEq, Eq)]
pub struct Refusal {
    pub number: u64,
    pub place: u64,
    /// The written-out path that 13 did not find.
    pub path: Bytes,
}

fn refuse<T>(number: u64, place: u64) -> Result<T, Refusal> {
    let path = Bytes::new();
    Err(Refusal {
        number,
        place,
        path,
    })
}

/// The place of a line; files are counted from 0 here, lines from 1.
fn place(file: usize, line: usize) -> u64 {
    ((file as u64 + 1) << 32) + line as u64
}

pub fn resolve(
    bundle: &[u8],
    paths: [&[u8]; 3],
    profile: [&[u8]; 4],
    room: usize,
    requests: Requests,
) -> Answer {
    match accepted(bundle, paths, profile, room, requests) {
        Ok(texts) => Answer {
            number: 0,
            place: 0,
            texts,
        },
        Err(refusal) => Answer {
            number: refusal.number,
            place: refusal.place,
            texts: Default::default(),
        },
    }
}

fn accepted(
    bundle: &[u8],
    paths: [&[u8]; 3],
    texts: [&[u8]; 4],
    room: usize,
    requests: Requests,
) -> Result<[Bytes; 10], Refusal> {
    let profile = profile(texts)?;
    let text = read(bundle, paths, requests)?;
    let Some(texts) = walk(&text, &profile, requests) else {
        return refuse(11, 0);
    };
    let total: usize = texts.iter().map(Vec::len).sum();
    if total > room || total > MAX_TOTAL {
        return refuse(11, 0);
    }
    Ok(texts)
}

/// The bundle without a profile: number and place, and the bytes written to the
/// lent name. For 13 the place is the path's length.
pub fn check(
    bundle: &[u8],
    paths: [&[u8]; 3],
    room: usize,
    requests: Requests,
) -> (u64, u64, Bytes) {
    match read(bundle, paths, requests) {
        Ok(_) => (0, 0, Bytes::new()),
        Err(refusal) if refusal.number != 13 => (refusal.number, refusal.place, Bytes::new()),
        Err(refusal) if refusal.path.len() > room => (11, 0, Bytes::new()),
        Err(refusal) => (13, refusal.path.len() as u64, refusal.path),
    }
}

/// One component's stretch, as start and length, for ten lengths and a buffer.
pub fn stretch(lengths: &[u32; 10], room: usize, component: u64) -> (u64, u64) {
    let sum = |lengths: &[u32]| lengths.iter().map(|&l| u64::from(l)).sum::<u64>();
    if component > 4 || sum(lengths) > room as u64 {
        return (0, 0);
    }
    let first = 2 * component as usize;
    (sum(&lengths[..first]), sum(&lengths[first..first + 2]))
}

// The profile.

struct Profile {
    model: Bytes,
    layouts: Vec<Bytes>,
    variants: Vec<Bytes>,
    options: Vec<Bytes>,
}

fn fields(text: &[u8]) -> Vec<Bytes> {
    text.split(|&b| b == b',').map(<[u8]>::to_vec).collect()
}

fn profile(texts: [&[u8]; 4]) -> Result<Profile, Refusal> {
    let [model, layouts, variants, options] = texts;
    let mut split = [
        vec![model.to_vec()],
        fields(layouts),
        fields(variants),
        fields(options),
    ];
    for (i, text) in texts.iter().enumerate() {
        let long = text.len() > MAX_TEXT || split[i].iter().any(|f| f.len() > MAX_FIELD);
        if long || text.iter().any(|b| !(0x21..=0x7e).contains(b)) {
            return refuse(1, i as u64 + 1);
        }
    }
    split[3].retain(|option| !option.is_empty());
    let [_, layouts, mut variants, options] = split;
    if layouts.len() > MAX_LAYOUTS {
        return refuse(2, 2);
    }
    if variants.len() > layouts.len() {
        return refuse(2, 3);
    }
    if options.len() > MAX_OPTIONS {
        return refuse(2, 4);
    }
    variants.resize(layouts.len(), Bytes::new());
    Ok(Profile {
        model: model.to_vec(),
        layouts,
        variants,
        options,
    })
}

// Groups, sets and rules.

#[derive(Clone, Copy, PartialEq, Eq)]
enum Left {
    Model,
    Layout,
    Variant,
    Option,
}

struct Set {
    left: Vec<Left>,
    /// The index word of layout and variant; empty where there is none.
    index: Bytes,
    right: Vec<usize>,
    rules: Vec<Rule>,
}

impl Set {
    fn has(&self, item: Left) -> bool {
        self.left.contains(&item)
    }

    /// Whether the heading's index is one of the four words.
    fn index_word(&self) -> bool {
        ["[single]", "[first]", "[later]", "[any]"]
            .iter()
            .any(|word| self.index == word.as_bytes())
    }
}

struct Rule {
    left: Vec<Bytes>,
    right: Vec<Value>,
}

struct Group {
    /// How many groups were defined before it.
    before: usize,
    elements: HashSet<Bytes>,
}

/// What the lines of a file are.
enum Entry {
    Group,
    Set(Set),
    Include(Rc<Reading>),
}

/// One reading of a file.
struct Reading {
    entries: Vec<Entry>,
    /// Whether a group line was read in it or in a file that it includes.
    defines: bool,
}

/// A bundle whose lines are all good, with the includes written out.
pub struct Text {
    groups: HashMap<Bytes, Group>,
    first: Rc<Reading>,
}

impl Text {
    /// The names of the groups that the text defines.
    pub fn defined(&self) -> HashSet<Bytes> {
        self.groups.keys().cloned().collect()
    }

    /// The names of the groups in its group lines and left words.
    pub fn named(&self) -> HashSet<Bytes> {
        let mut names = self.defined();
        let mut seen: HashSet<*const Reading> = HashSet::new();
        let mut left = vec![&self.first];
        while let Some(reading) = left.pop() {
            for entry in &reading.entries {
                match entry {
                    Entry::Group => {}
                    Entry::Set(set) => {
                        let words = set.rules.iter().flat_map(|rule| &rule.left);
                        names.extend(words.filter(|w| w[0] == b'$').cloned());
                    }
                    Entry::Include(included) => {
                        if seen.insert(Rc::as_ptr(included)) {
                            left.push(included);
                        }
                    }
                }
            }
        }
        names
    }
}

struct Reader<'a> {
    files: Vec<bundle::File<'a>>,
    paths: [&'a [u8]; 3],
    requests: Requests,
    /// The first file of each name.
    names: HashMap<&'a [u8], usize>,
    groups: HashMap<Bytes, Group>,
    /// Readings of a file at a depth that define no group. Another such reading
    /// would find the same.
    done: HashMap<(usize, usize), Rc<Reading>>,
}

/// Reads all lines, or refuses the bundle, a file too long or the first bad line.
pub fn read(bundle: &[u8], paths: [&[u8]; 3], requests: Requests) -> Result<Text, Refusal> {
    let Some(files) = bundle::unpack(bundle) else {
        return refuse(12, 0);
    };
    if let Some(file) = files.iter().position(|file| file.1.len() > MAX_FILE) {
        return refuse(3, place(file, 0));
    }
    let mut names = HashMap::new();
    for (i, file) in files.iter().enumerate() {
        names.entry(file.0).or_insert(i);
    }
    let mut reader = Reader {
        files,
        paths,
        requests,
        names,
        groups: HashMap::new(),
        done: HashMap::new(),
    };
    let first = reader.read_file(0, 0)?;
    let groups = reader.groups;
    Ok(Text { groups, first })
}

impl Reader<'_> {
    /// Reads a file that is so deep below the first.
    fn read_file(&mut self, file: usize, depth: usize) -> Result<Rc<Reading>, Refusal> {
        if let Some(reading) = self.done.get(&(file, depth)) {
            return Ok(reading.clone());
        }
        let groups = self.groups.len();
        let mut entries = Vec::new();
        for line in split_lines(self.files[file].1, self.requests.cr_lf) {
            let at = place(file, line.number);
            let include = line.heading && line.words.first().is_some_and(|w| w == b"include");
            if let Err(number) = line_faults(&line) {
                return refuse(number, at);
            }
            if include && self.requests.bundles {
                let included = self.read_include(&line, at, depth)?;
                entries.push(Entry::Include(included));
            } else if let Err(number) = self.read_line(&line, &mut entries) {
                return refuse(number, at);
            }
        }
        let defines = self.groups.len() > groups;
        let reading = Rc::new(Reading { entries, defines });
        if !defines {
            self.done.insert((file, depth), reading.clone());
        }
        Ok(reading)
    }

    fn read_include(&mut self, line: &Line, at: u64, depth: usize) -> Result<Rc<Reading>, Refusal> {
        let [_, path] = line.words.as_slice() else {
            return refuse(6, at);
        };
        let Some(path) = bundle::written_path(path, self.paths) else {
            return refuse(15, at);
        };
        let Some(&file) = self.names.get(path.as_slice()) else {
            return Err(Refusal {
                number: 13,
                place: at,
                path,
            });
        };
        if depth == MAX_DEPTH {
            return refuse(14, at);
        }
        self.read_file(file, depth + 1)
    }

    /// A line without bad bytes and long words.
    fn read_line(&mut self, line: &Line, entries: &mut Vec<Entry>) -> Result<(), u64> {
        match line.words.first() {
            None if line.heading => return Err(6),
            None => {}
            Some(word) if line.heading && word == b"include" => return Err(9),
            Some(word) if line.heading && word[0] == b'$' => {
                self.read_group(&line.words)?;
                entries.push(Entry::Group);
            }
            Some(_) if line.heading => entries.push(Entry::Set(read_heading(&line.words)?)),
            Some(_) => {
                let Some(Entry::Set(set)) = entries.last_mut() else {
                    return Err(6);
                };
                let rule = read_rule(&line.words, set)?;
                set.rules.push(rule);
            }
        }
        Ok(())
    }

    fn read_group(&mut self, words: &[Bytes]) -> Result<(), u64> {
        let named = words[0].len() > 1;
        let equals = words.get(1).is_some_and(|word| word == b"=");
        if !named || !equals || !words[2..].iter().all(|word| ordinary(word)) {
            return Err(6);
        }
        if self.groups.contains_key(&words[0]) || self.groups.len() == MAX_GROUPS {
            return Err(10);
        }
        let group = Group {
            before: self.groups.len(),
            elements: words[2..].iter().cloned().collect(),
        };
        self.groups.insert(words[0].clone(), group);
        Ok(())
    }
}

fn line_faults(line: &Line) -> Result<(), u64> {
    if line.bad_byte {
        return Err(4);
    }
    if line.words.iter().any(|word| word.len() > MAX_WORD) {
        return Err(5);
    }
    Ok(())
}

fn ordinary(word: &[u8]) -> bool {
    word != b"=" && !matches!(word[0], b'!' | b'$' | b'*')
}

fn read_heading(words: &[Bytes]) -> Result<Set, u64> {
    let sides: Vec<&[Bytes]> = words.split(|word| word == b"=").collect();
    if sides.len() != 2 || sides.iter().any(|side| side.is_empty()) {
        return Err(6);
    }
    let mut set = Set {
        left: Vec::new(),
        index: Bytes::new(),
        right: Vec::new(),
        rules: Vec::new(),
    };
    let mut indexes = HashSet::new();
    for word in sides[0] {
        let (item, index) = left_item(word).ok_or(7u64)?;
        if set.has(item) {
            return Err(7);
        }
        set.left.push(item);
        indexes.extend(index);
    }
    if indexes.len() > 1 {
        return Err(7);
    }
    set.index = indexes.into_iter().next().unwrap_or_default();
    for word in sides[1] {
        let component = COMPONENTS.iter().position(|c| c.as_bytes() == word);
        let component = component.ok_or(7u64)?;
        if set.right.contains(&component) {
            return Err(7);
        }
        set.right.push(component);
    }
    Ok(set)
}

/// A left item of a heading, and for layout and variant its index as written.
fn left_item(word: &[u8]) -> Option<(Left, Option<Bytes>)> {
    const INDEXES: [&str; 9] = [
        "", "[1]", "[2]", "[3]", "[4]", "[single]", "[first]", "[later]", "[any]",
    ];
    match word {
        b"model" => return Some((Left::Model, None)),
        b"option" => return Some((Left::Option, None)),
        _ => {}
    }
    let (item, index) = if let Some(index) = word.strip_prefix(b"layout") {
        (Left::Layout, index)
    } else {
        (Left::Variant, word.strip_prefix(b"variant")?)
    };
    let known = INDEXES.iter().any(|known| known.as_bytes() == index);
    known.then(|| (item, Some(index.to_vec())))
}

fn read_rule(words: &[Bytes], set: &Set) -> Result<Rule, u64> {
    let equals = set.left.len();
    if words.len() != equals + 1 + set.right.len() || words[equals] != b"=" {
        return Err(6);
    }
    let (left, right) = (&words[..equals], &words[equals + 1..]);
    let left_word = |w: &Bytes| ordinary(w) || w == b"*" || (w[0] == b'$' && w.len() > 1);
    if !left.iter().all(left_word) || !right.iter().all(|word| ordinary(word)) {
        return Err(6);
    }
    let mut values = Vec::new();
    for word in right {
        values.push(read_value(word, set.index_word()).ok_or(8u64)?);
    }
    Ok(Rule {
        left: left.to_vec(),
        right: values,
    })
}

// The walk.

/// One component: the string under the stepwise update, and its two texts.
#[derive(Clone, Default)]
struct Component {
    string: Bytes,
    base: Bytes,
    additions: Bytes,
}

fn signed(text: &[u8]) -> bool {
    matches!(text.first(), Some(b'+' | b'|'))
}

impl Component {
    fn update(&mut self, value: &[u8]) {
        if value.is_empty() {
            return;
        }
        if signed(value) {
            self.string.extend(value);
            self.additions.extend(value);
            return;
        }
        if self.string.is_empty() || signed(&self.string) {
            self.string.splice(0..0, value.iter().copied());
        }
        if self.base.is_empty() {
            self.base = value.to_vec();
        }
    }
}

type Components = [Component; 5];

struct Walk<'a> {
    text: &'a Text,
    profile: &'a Profile,
    requests: Requests,
    /// How many groups are defined so far.
    defined: usize,
    /// What a reading without group lines fires after so many groups.
    fired: HashMap<(*const Reading, usize), Rc<Components>>,
}

/// None where the additions alone are over the largest total.
fn walk(text: &Text, profile: &Profile, requests: Requests) -> Option<[Bytes; 10]> {
    let mut walk = Walk {
        text,
        profile,
        requests,
        defined: 0,
        fired: HashMap::new(),
    };
    let components = walk.reading(&text.first)?;
    let mut texts: [Bytes; 10] = Default::default();
    for (i, component) in components.iter().enumerate() {
        let both = [component.base.as_slice(), &component.additions].concat();
        assert!(both == component.string, "the stepwise string differs");
        texts[2 * i] = component.base.clone();
        texts[2 * i + 1] = component.additions.clone();
    }
    Some(texts)
}

impl Walk<'_> {
    /// What one reading of a file fires.
    fn reading(&mut self, reading: &Rc<Reading>) -> Option<Rc<Components>> {
        let key = (Rc::as_ptr(reading), self.defined);
        if let Some(fired) = self.fired.get(&key) {
            return Some(fired.clone());
        }
        let mut components = Components::default();
        for entry in &reading.entries {
            match entry {
                Entry::Group => self.defined += 1,
                Entry::Set(set) => self.set(set, &mut components)?,
                Entry::Include(included) => {
                    let fired = self.reading(included)?;
                    for (component, fired) in components.iter_mut().zip(fired.iter()) {
                        component.update(&fired.base);
                        component.update(&fired.additions);
                    }
                    within(&components)?;
                }
            }
        }
        let fired = Rc::new(components);
        if !reading.defines {
            self.fired.insert(key, fired.clone());
        }
        Some(fired)
    }

    fn set(&self, set: &Set, components: &mut Components) -> Option<()> {
        for (rule, layout) in self.firings(set) {
            for (component, value) in set.right.iter().zip(&rule.right) {
                components[*component].update(&expand(value, self.profile, layout));
            }
            within(components)?;
        }
        Some(())
    }

    /// The rules that fire and the layouts at which they do, in their order.
    fn firings<'s>(&self, set: &'s Set) -> Vec<(&'s Rule, usize)> {
        let layouts = matched_layouts(set, self.profile.layouts.len());
        let matches = |rule: &&Rule, layout: usize| self.rule_matches(rule, set, layout);
        let mut fired = Vec::new();
        if set.has(Left::Option) && self.requests.order {
            for rule in &set.rules {
                let layouts = layouts.iter().filter(|&&layout| matches(&rule, layout));
                fired.extend(layouts.map(|&layout| (rule, layout)));
            }
            return fired;
        }
        let most = if set.has(Left::Option) { usize::MAX } else { 1 };
        for layout in layouts {
            let rules = set.rules.iter().filter(|rule| matches(rule, layout));
            fired.extend(rules.take(most).map(|rule| (rule, layout)));
        }
        fired
    }

    fn rule_matches(&self, rule: &Rule, set: &Set, matched: usize) -> bool {
        let profile = self.profile;
        set.left.iter().zip(&rule.left).all(|(item, word)| {
            let equal = |value: &Bytes| match self.text.groups.get(word) {
                Some(group) => group.before < self.defined && group.elements.contains(value),
                None => ordinary(word) && word == value,
            };
            match item {
                Left::Model => word == b"*" || equal(&profile.model),
                Left::Option => word == b"*" || profile.options.iter().any(equal),
                Left::Layout => place_matches(word, &profile.layouts[matched - 1], equal),
                Left::Variant => place_matches(word, &profile.variants[matched - 1], equal),
            }
        })
    }
}

/// Additions only grow, and with them the total.
fn within(components: &Components) -> Option<()> {
    let total: usize = components.iter().map(|c| c.additions.len()).sum();
    (total <= MAX_TOTAL).then_some(())
}

/// The layouts at which a set runs; 0 stands for a set without one.
fn matched_layouts(set: &Set, count: usize) -> Vec<usize> {
    if !set.has(Left::Layout) && !set.has(Left::Variant) {
        return vec![0];
    }
    let all: Vec<usize> = (1..=count).collect();
    match set.index.as_slice() {
        b"[first]" => vec![1],
        b"[later]" => all[1..].to_vec(),
        b"[any]" => all,
        b"" | b"[single]" if count == 1 => vec![1],
        [b'[', digit @ b'1'..=b'4', b']'] if count > 1 => {
            let k = usize::from(digit - b'0');
            all.into_iter().filter(|&layout| layout == k).collect()
        }
        _ => Vec::new(),
    }
}

fn place_matches(word: &[u8], value: &Bytes, equal: impl Fn(&Bytes) -> bool) -> bool {
    if word == b"*" {
        !value.is_empty()
    } else {
        equal(value)
    }
}
