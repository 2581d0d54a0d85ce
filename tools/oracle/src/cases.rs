//! The cases for the requests of 02 (lists/cases), replayed on our own
//! reading. lists/README.md says their form.

use crate::list::hash;
use crate::reference::memo::Shape;
use crate::reference::net::Net;
use crate::reference::session::{self, Session};
use crate::reference::{call, sheet, Answer, Settings};
use std::str::SplitWhitespace;

/// What lent memory holds before a call and an opening.
const WORD: u64 = 0xabcd_0123_4567_89ef;
const TAG: u8 = 0x5a;
/// What is lent where the sheet is refused or the entries are none.
const AMPLE: (usize, usize) = (10_000, 2_000);

/// A replay: its case, and the session that is open with its lent memory.
#[derive(Default)]
struct Replay {
    name: String,
    sheet: Vec<u8>,
    session: Option<(Net, Session)>,
    need: (usize, usize),
    words: Vec<u64>,
    tags: Vec<u8>,
}

fn number(f: &mut SplitWhitespace) -> Option<u64> {
    f.next()?.parse().ok()
}

fn hexadecimal(f: &mut SplitWhitespace) -> Option<u64> {
    u64::from_str_radix(f.next()?, 16).ok()
}

fn chain(f: &mut SplitWhitespace) -> Option<Vec<u8>> {
    match f.next()? {
        "-" => Some(vec![]),
        digits => digits.bytes().map(|b| b.checked_sub(b'0')).collect(),
    }
}

fn settings(f: &mut SplitWhitespace, budget: u64) -> Option<Settings> {
    Some(Settings { budget, entries: number(f)?, driver: number(f)?, filters: number(f)?, chain: chain(f)? })
}

/// So many words and tags as are needed, and x and y more.
fn lent(f: &mut SplitWhitespace, need: (usize, usize)) -> Option<(usize, usize)> {
    let mut more = |n: usize| n.checked_add_signed(f.next()?.parse().ok()?);
    Some((more(need.0)?, more(need.1)?))
}

/// An answer as the cases have it.
pub fn shown(a: Answer) -> String {
    match a {
        Answer::Exact { mv, value, nodes } => format!("exact {mv} {value} {nodes}"),
        Answer::None => "none".into(),
        Answer::Spent { nodes } => format!("spent {nodes}"),
        Answer::Refused { number, line, nodes } => format!("refused {number} {line} {nodes}"),
    }
}

impl Replay {
    fn need(&self, entries: u64) -> (usize, usize) {
        match sheet::read(&self.sheet) {
            Ok(rows) if (1..=1_024).contains(&entries) => {
                let shape = Shape::new(&Net::new(rows), entries);
                (shape.words(), shape.rows())
            }
            _ => AMPLE,
        }
    }

    fn choose(&mut self, f: &mut SplitWhitespace) -> Option<[String; 2]> {
        let budget = number(f)?;
        let s = settings(f, budget)?;
        let (w, t) = lent(f, self.need(s.entries))?;
        let (mut words, mut tags) = (vec![WORD; w], vec![TAG; t]);
        let (answer, _) = call(&self.sheet, &s, &mut words, &mut tags);
        Some([shown(answer), hash(&words, &tags)])
    }

    fn open(&mut self, f: &mut SplitWhitespace) -> Option<[String; 2]> {
        let s = settings(f, 0)?;
        self.need = self.need(s.entries);
        let (w, t) = lent(f, self.need)?;
        (self.words, self.tags) = (vec![WORD; w], vec![TAG; t]);
        let opened = session::open(&self.sheet, &s, &mut self.words, &mut self.tags);
        let answer = opened.as_ref().map_or_else(|a| shown(*a), |_| "opened".into());
        self.session = opened.ok();
        Some([answer, hash(&self.words, &self.tags)])
    }

    fn pick(&mut self, f: &mut SplitWhitespace) -> Option<[String; 2]> {
        let budget = number(f)?;
        let mut m = [0; 4];
        for word in &mut m {
            *word = hexadecimal(f)?;
        }
        let (w, t) = lent(f, self.need)?;
        let (net, session) = self.session.as_mut()?;
        let (words, tags) = (self.words.get_mut(..w)?, self.tags.get_mut(..t)?);
        let answer = session.choose(net, budget, &m, words, tags);
        Some([shown(answer), hash(&self.words, &self.tags)])
    }

    /// What an operation gives: its answer and the hash of the memory; an
    /// empty answer from one that has none.
    fn operation(&mut self, line: &str) -> Option<[String; 2]> {
        let mut fields = line.split_whitespace();
        let f = &mut fields;
        let got = match f.next()? {
            "case" => {
                *self = Replay { name: f.next()?.into(), ..Replay::default() };
                number(f)?;
                Some(Default::default())
            }
            "choose" => self.choose(f),
            "open" => self.open(f),
            "pick" => self.pick(f),
            "poke" => {
                let word = self.words.get_mut(number(f)? as usize)?;
                *word = hexadecimal(f)?;
                Some(Default::default())
            }
            "poketag" => {
                let tag = self.tags.get_mut(number(f)? as usize)?;
                *tag = hexadecimal(f)?.try_into().ok()?;
                Some(Default::default())
            }
            _ => None,
        };
        got.filter(|_| fields.next().is_none())
    }
}

/// How a file of cases fared.
#[derive(Default)]
struct Counts {
    cases: usize,
    operations: usize,
    failed: usize,
}

/// The lines of a sheet that `first` announces.
fn sheet_lines<'a>(first: &str, lines: &mut impl Iterator<Item = &'a str>) -> Option<Vec<u8>> {
    let n: usize = first.strip_prefix("sheet ")?.parse().ok()?;
    let taken: Vec<&str> = lines.take(n).collect();
    (taken.len() == n).then(|| taken.iter().map(|l| l.to_string() + "\n").collect::<String>().into())
}

/// Whether what an operation gave is what the lines after it expect: at least
/// the answer, and the memory if it stands there.
fn expected(got: &[String; 2], want: &[&str]) -> bool {
    let memory = format!("memory {}", got[1]);
    match want {
        [answer] => *answer == got[0],
        [answer, left] => *answer == got[0] && *left == memory,
        _ => want.is_empty() && got[0].is_empty(),
    }
}

/// A file of cases, each operation with what it gives now in the place of what
/// stood there.
pub fn renew(text: &str) -> Option<String> {
    let mut replay = Replay::default();
    let mut out = String::new();
    let mut lines = text.split_terminator('\n').peekable();
    while let Some(line) = lines.next() {
        out += &format!("{line}\n");
        if line.starts_with("sheet ") {
            replay.sheet = sheet_lines(line, &mut lines)?;
            out += std::str::from_utf8(&replay.sheet).ok()?;
            continue;
        }
        let got = replay.operation(line)?;
        while let Some(want) = lines.next_if(|l| l.starts_with("> ")) {
            out += &match want.strip_prefix("> memory ") {
                Some(_) => format!("> memory {}\n", got[1]),
                None => format!("> {}\n", got[0]),
            };
        }
    }
    Some(out)
}

/// Replays a file of cases; true if each operation gives what stands there.
pub fn check(text: &str) -> bool {
    let (mut replay, mut counts) = (Replay::default(), Counts::default());
    let all: Vec<&str> = text.split_terminator('\n').collect();
    let mut at = 0;
    while at < all.len() {
        let (line, number) = (all[at], at + 1);
        let mut rest = all[at + 1..].iter().copied();
        if line.starts_with("sheet ") {
            let Some(sheet) = sheet_lines(line, &mut rest) else {
                println!("line {number}: no sheet: {line}");
                return false;
            };
            replay.sheet = sheet;
            at = all.len() - rest.len();
            continue;
        }
        let Some(got) = replay.operation(line) else {
            println!("line {number}: not of the form, or not known here: {line}");
            return false;
        };
        let want: Vec<&str> = rest.map_while(|l| l.strip_prefix("> ")).collect();
        at += 1 + want.len();
        counts.cases += line.starts_with("case ") as usize;
        counts.operations += !got[0].is_empty() as usize;
        if !expected(&got, &want) {
            counts.failed += 1;
            println!("line {number} ({}): {line}: expected {want:?}, now {got:?}", replay.name);
        }
    }
    println!("{} cases, {} operations, {} failed", counts.cases, counts.operations, counts.failed);
    counts.failed == 0 && counts.operations > 0
}
