//! The fixed list: how it is replayed, and how it is made.
//! lists/README.md says its format.

use crate::compare::{budgets, Counts};
use crate::draft;
use crate::random::{self, Random};
use crate::reference::{call, memo::Shape, net::Net, sheet, Answer, Settings};
use crate::rust::{quietly, refer, show, Got, Rust};

/// The most words, tags and bytes of a sheet that the list lends.
const WORDS: u64 = 7_200;
const TAGS: u64 = 1_100;
const SHEET: usize = 65_537;

/// One case, as a `c` line gives it.
#[derive(Clone)]
pub struct Case {
    settings: Settings,
    words: usize,
    tags: usize,
}

fn fill(case: &Case) -> (Vec<u64>, Vec<u8>) {
    let words = (0..case.words as u64).map(|i| 0xA5A5_A5A5_0000_0000 + i);
    let tags = (0..case.tags).map(|i| (i % 255 + 1) as u8);
    (words.collect(), tags.collect())
}

/// FNV-1a, 64 bits.
pub fn fnv(bytes: impl Iterator<Item = u8>) -> u64 {
    bytes.fold(0xcbf2_9ce4_8422_2325, |h, b| (h ^ b as u64).wrapping_mul(0x100_0000_01b3))
}

pub fn hash(words: &[u64], tags: &[u8]) -> String {
    let bytes = words.iter().flat_map(|w| w.to_le_bytes()).chain(tags.iter().copied());
    format!("{:016x}", fnv(bytes))
}

/// The reference's answer to a case and the hash of what it leaves.
fn by_reference(sheet: &[u8], case: &Case) -> String {
    let (mut words, mut tags) = fill(case);
    let (answer, _) = call(sheet, &case.settings, &mut words, &mut tags);
    format!("{answer} {}", hash(&words, &tags))
}

/// The Rust's, where `expected` is an answer that it has: for a refusal that
/// it shows in its own way, `expected` itself; so too where a settling came to
/// rest with the last firing allowed, which it refuses, and our reading by its
/// rule does.
fn by_rust(sheet: &[u8], case: &Case, expected: &str) -> Option<String> {
    let number = expected.strip_prefix("refused ").map(|x| x.split(' ').next().unwrap());
    if matches!(number, Some("1" | "2" | "3" | "4" | "6" | "7" | "11" | "12")) {
        return None;
    }
    let net = Net::new(sheet::read(sheet).ok()?);
    let o = Rust::new(&net).choose(&case.settings);
    let endless = matches!(&o.got, Got::Error(e) if e.contains("never stop")) && !o.fell_back;
    let ((answer, ..), at_limit) = net.noting_limit(|| refer(&net, &case.settings));
    if at_limit {
        let by_rust_rule = net.by_rust_rule(|| refer(&net, &case.settings).0);
        let refused = matches!(by_rust_rule, Answer::Refused { number: 10, .. });
        let same = endless && refused && expected.starts_with(&format!("{answer} "));
        return Some(if same { expected.into() } else { show(&o, case.settings.budget) });
    }
    if let Some(number) = number {
        let shown = match (number, &o.got) {
            ("9", _) => o.fell_back,
            ("5", Got::Error(e)) => e.contains("order piece"),
            ("8", Got::Error(e)) => !o.fell_back && e.contains("do not all belong"),
            ("10", _) => endless,
            _ => false,
        };
        return Some(if shown { expected.into() } else { show(&o, case.settings.budget) });
    }
    let (mut words, mut tags) = fill(case);
    if words.len() < o.words.len() || tags.len() < o.tags.len() {
        return Some("more memory".into());
    }
    words[..o.words.len()].copy_from_slice(&o.words);
    tags[..o.tags.len()].copy_from_slice(&o.tags);
    // -0.0 is printed as 0.
    let answer = show(&o, case.settings.budget).replace(" -0 ", " 0 ");
    Some(format!("{answer} {}", hash(&words, &tags)))
}

/// A list, or the cases written by hand, as sheets with their cases.
#[derive(Default)]
pub struct Reader {
    pub sheet: Vec<u8>,
    sheets: usize,
    pub name: String,
}

pub enum Line<'a> {
    /// Nothing to do for it.
    Quiet,
    /// A case, with the rest of its line.
    Case(Case, &'a str),
    /// A walk (src/walk.rs), with the rest of its line.
    Walk(&'a str),
    End(&'a str),
}

impl Reader {
    pub fn line<'a>(&mut self, text: &'a str) -> Option<Line<'a>> {
        let Some(first) = text.chars().next() else {
            return Some(Line::Quiet);
        };
        let rest = &text[first.len_utf8()..];
        match first {
            '#' => {
                if let Some(name) = rest.strip_prefix(" name: ") {
                    self.name = name.into();
                }
            }
            's' => {
                self.sheets += 1;
                self.sheet.clear();
            }
            '|' => self.add(rest, 1),
            '!' => self.sheet.extend(rest.bytes()),
            'x' => {
                for i in (0..rest.len()).step_by(2) {
                    self.sheet.push(u8::from_str_radix(rest.get(i..i + 2)?, 16).ok()?);
                }
            }
            '*' => {
                let (n, text) = rest.split_once(' ')?;
                self.add(text, n.parse().ok().filter(|&n| n <= SHEET)?);
            }
            '@' => {
                let words: Vec<&str> = rest.split_whitespace().collect();
                self.sheet.extend(draft::named(&words)?.text().bytes());
            }
            'c' => {
                let f: Vec<&str> = rest.splitn(9, ' ').collect();
                let n = |i: usize| f.get(i)?.parse::<u64>().ok();
                let length = |i: usize, most: u64| n(i).filter(|&x| x <= most).map(|x| x as usize);
                let piece = |b: u8| b.checked_sub(48);
                let settings = Settings {
                    budget: n(1)?,
                    entries: n(2)?,
                    driver: n(3)?,
                    filters: n(4)?,
                    chain: f
                        .get(5)
                        .filter(|x| **x != "-")
                        .unwrap_or(&"")
                        .bytes()
                        .map(piece)
                        .collect::<Option<_>>()?,
                };
                let case = Case { settings, words: length(6, WORDS)?, tags: length(7, TAGS)? };
                return Some(Line::Case(case, f.get(8)?));
            }
            'w' => return Some(Line::Walk(rest)),
            'e' => return Some(Line::End(rest)),
            _ => return None,
        }
        Some(Line::Quiet)
    }

    fn add(&mut self, text: &str, times: usize) {
        for _ in 0..times {
            self.sheet.extend(text.bytes());
            self.sheet.push(10);
        }
    }
}

/// Replays a list: each case by the reference, by the Rust, or by both.
/// True if every case gives what the list says and the list is whole.
pub fn check(text: &str, with_reference: bool, with_rust: bool) -> bool {
    let mut r = Reader::default();
    let (mut at, mut cases, mut by_both, mut failed, mut whole) = (0, 0, 0, 0, false);
    let mut counts = std::collections::BTreeMap::<String, usize>::new();
    for (i, line) in text.split_inclusive('\n').enumerate() {
        let Some(read) = r.line(line.trim_end_matches('\n')) else {
            println!("line {}: not of the list's form", i + 1);
            return false;
        };
        match read {
            Line::Quiet if r.sheet.len() > SHEET => {
                println!("line {}: the sheet is too long", i + 1);
                return false;
            }
            Line::Quiet => {}
            Line::Case(case, expected) => {
                cases += 1;
                let mut got = vec![];
                if with_reference {
                    got.extend(Some(quietly(|| by_reference(&r.sheet, &case))));
                }
                if with_rust {
                    let by = quietly(|| by_rust(&r.sheet, &case, expected));
                    got.extend(by.map_or(Some(None), |x| x.map(Some)));
                }
                by_both += (got.len() == 2) as usize;
                if let Some(other) = got.into_iter().find(|x| x.as_deref() != Some(expected)) {
                    failed += 1;
                    *counts.entry(r.name.clone()).or_default() += 1;
                    if failed <= 5 {
                        let other = other.unwrap_or("a panic".into());
                        println!("line {} ({}): list {expected}, now {other}", i + 1, r.name);
                    }
                }
            }
            Line::Walk(_) => {
                println!("line {}: not of the list's form", i + 1);
                return false;
            }
            Line::End(rest) => {
                let sum = fnv(text.bytes().take(at));
                whole = rest == format!(" {} {cases} {sum:016x}", r.sheets) && at + line.len() == text.len();
            }
        }
        at += line.len();
    }
    println!("{} sheets, {cases} cases, {by_both} of them by both, {failed} failed", r.sheets);
    for (name, n) in &counts {
        println!("failed: {n} of {name}");
    }
    if !whole {
        println!("the list's end does not fit: it is cut or changed");
    }
    failed == 0 && whole
}

/// What the reader gives of a sheet: the size, the number of rows and a hash of
/// them, each packed as crates/rows/specs/Packed.antt says; or the refusal.
fn reading(text: &[u8]) -> String {
    match sheet::read(text) {
        Ok(s) => {
            let pack = |(kind, [t, p, n, c]): &(usize, [i64; 4])| {
                *kind as u64
                    | (*t as u64) << 4
                    | (*p as u64) << 12
                    | ((n + 1_000_000) as u64) << 20
                    | (*c as u64) << 41
            };
            let mix = |h: u64, w: u64| (h ^ w).wrapping_mul(0x100_0000_01b3);
            let h = s.rows.iter().map(pack).fold(0xcbf2_9ce4_8422_2325, mix);
            format!("net {} {} {} {h:016x}", s.transitions.len(), s.marks.len(), s.rows.len())
        }
        Err(f) => format!("refused {} {}", f.number, f.line),
    }
}

/// Reads each sheet of a list whose cases are `c` alone, by our own reading.
pub fn read(text: &str) -> Option<String> {
    let mut r = Reader::default();
    let mut out = String::new();
    for line in text.split_terminator('\n') {
        if line == "c" {
            out += &reading(&r.sheet);
            out.push('\n');
        } else {
            r.line(line)?;
        }
    }
    Some(out)
}

/// The list, from the cases written by hand and a random sample.
pub fn make(by_hand: &str) -> Option<String> {
    let mut out = String::from("# The fixed list. How it is made and read: README.md.\n");
    let mut r = Reader::default();
    let mut counts = Counts::default();
    let mut cases = 0;
    for (i, text) in by_hand.lines().enumerate() {
        let Some(line) = r.line(text) else {
            eprintln!("by hand, line {}: not of the form", i + 1);
            return None;
        };
        match line {
            Line::Quiet if text.starts_with('@') => {
                let words: Vec<&str> = text[1..].split_whitespace().collect();
                out += &draft::named(&words)?.text().lines().map(|l| format!("|{l}\n")).collect::<String>();
            }
            Line::Quiet if text.is_empty() || text.starts_with('#') && !text.starts_with("# name: ") => {}
            Line::Quiet => out += &format!("{text}\n"),
            Line::Case(case, expected) => {
                let got = add(&mut out, &mut counts, &r.sheet, &case)?;
                cases += 1;
                if got != expected {
                    eprintln!("by hand, line {} ({}): {expected}, but {got}", i + 1, r.name);
                    return None;
                }
            }
            Line::Walk(_) | Line::End(_) => return None,
        }
    }
    let mut sheets = r.sheets;
    cases += sample(&mut out, &mut counts, &mut sheets)?;
    let sum = fnv(out.bytes());
    out += &format!("e {sheets} {cases} {sum:016x}\n");
    eprintln!("{sheets} sheets, {cases} cases, {} bytes\n{}", out.len(), counts.table().0);
    Some(out)
}

/// Adds a case; its answer, or nothing if the Rust differs.
fn add(out: &mut String, counts: &mut Counts, sheet: &[u8], case: &Case) -> Option<String> {
    let (mut words, mut tags) = fill(case);
    let (answer, _) = call(sheet, &case.settings, &mut words, &mut tags);
    let line = format!("{answer} {}", hash(&words, &tags));
    if let Some(other) = by_rust(sheet, case, &line).filter(|x| *x != line) {
        eprintln!("reference {line}, Rust {other}: {:?}", case.settings);
        return None;
    }
    let s = &case.settings;
    let chain: String = match &s.chain[..] {
        [] => "-".into(),
        chain => chain.iter().map(|p| (p + 48) as char).collect(),
    };
    *out += &format!(
        "c {} {} {} {} {chain} {} {} {line}\n",
        s.budget, s.entries, s.driver, s.filters, case.words, case.tags
    );
    counts.add(&answer);
    Some(answer.to_string())
}

/// The random part: games and nets with settings in turn and budgets about N.
fn sample(out: &mut String, counts: &mut Counts, sheets: &mut usize) -> Option<usize> {
    const NETS: usize = 400;
    const GAMES: [&str; 8] = [
        "row 3 3 3",
        "drop 3 3 3",
        "drop 4 4 3",
        "hex 2",
        "hex 3",
        "domineering 4 4",
        "nim 1 2 3",
        "nim 1 1 3",
    ];
    let r = &mut Random(1);
    let (mut cases, mut turn) = (0, 0);
    for n in 0..GAMES.len() + NETS {
        let (name, text) = match GAMES.get(n) {
            Some(game) => (game.to_string(), draft::named(&game.split(' ').collect::<Vec<_>>())?.text()),
            None => (format!("net {}", n - GAMES.len()), interesting(r)),
        };
        *out += &format!("# name: {name}\ns\n");
        *sheets += 1;
        text.lines().for_each(|l| *out += &format!("|{l}\n"));
        let net = Net::new(sheet::read(text.as_bytes()).unwrap());
        for _ in 0..4 {
            turn += 1;
            let mut s = random::settings(r);
            // Every driver with every set of filters in turn.
            (s.driver, s.filters) = (turn % 3, turn / 3 % 4);
            if s.wants_goals() && net.goals.is_empty() && !r.once_in(10) {
                s.chain.retain(|&p| p < 3);
            }
            let mut all = budgets(r, &net, &s);
            while all.len() > 3 {
                let i = r.below(all.len());
                all.remove(i);
            }
            for budget in all {
                s.budget = budget;
                let shape = Shape::new(&net, s.entries);
                let more = |r: &mut Random| if r.once_in(2) { r.below(4) } else { 0 };
                let mut case = Case {
                    settings: s.clone(),
                    words: shape.words() + more(r),
                    tags: shape.rows() + more(r),
                };
                if r.once_in(100) {
                    case.words = shape.words() - 1;
                } else if r.once_in(100) {
                    case.tags = shape.rows() - 1;
                }
                add(out, counts, text.as_bytes(), &case)?;
                cases += 1;
            }
        }
    }
    Some(cases)
}

/// A random sheet that is not long; most have a search of some nodes.
fn interesting(r: &mut Random) -> String {
    loop {
        let text = random::sheet(r).text();
        let Ok(rows) = sheet::read(text.as_bytes()) else { continue };
        let few = Settings { budget: 12, entries: 64, driver: 0, filters: 1, chain: vec![] };
        let (answer, ..) = refer(&Net::new(rows), &few);
        let long = answer.to_string().starts_with("spent");
        if text.len() < 1_600 && (long || r.once_in(6)) || r.once_in(if text.len() < 5_000 { 20 } else { 60 })
        {
            return text;
        }
    }
}
