//! The differential run of sessions: one solver of the Rust, kept from choice
//! to choice, beside one session of our own reading. After each choice the
//! answer, the count, every row and tag, the dictionary, the history and the
//! generation are the same. Where the Rust has no answer our reading stands
//! alone: refusals 4, 6, 7, 11, 12 and 13; after 8 to 12 the solver is renewed.
//! Where a settling comes to rest with the last firing allowed, the Rust is held
//! to our reading by the Rust's rule, and both begin anew.
//!
//! Memory is altered alike on both sides within what the Rust reads. What only
//! our reading reads stands beside what it has to be read as: a row with a bound
//! that is none beside one with the net's own, -0.0 beside 0.0, and a history
//! counter near its end beside one far from it.

use crate::cases;
use crate::random::{self, Random};
use crate::reference::memo::{Shape, NO_MOVE};
use crate::reference::net::{Marking, Net};
use crate::reference::session::{self, Session};
use crate::reference::{call, sheet, Answer, Settings};
use crate::rust::{is, shown, Got, Kept, Rust};
use crate::scenes::{self, bytes, word, words, Met};
use std::collections::BTreeMap;

/// What a kept solver's counter has where ours is near its end.
const RAISED: u32 = 1 << 30;

/// What a run must meet beside each answer and refusal.
const ELSE: [&str; 9] = [
    "opened",
    "exact with count 0",
    "no child",
    "first generation again",
    "altered alike",
    "read as the net's own",
    "such a row stored",
    "counter at its end",
    "by the Rust's rule",
];

/// A session of ours, and the kept solver.
struct Beside<'a> {
    net: &'a Net,
    shape: Shape,
    ours: Session,
    words: Vec<u64>,
    tags: Vec<u8>,
    rust: Kept<'a>,
    altered: bool,
    /// Rows that differ by intent: ours and the Rust's.
    twins: BTreeMap<usize, (Vec<u64>, Vec<u64>)>,
    /// A transition whose counter of ours is near its end, and what it began with.
    raised: Option<(usize, u32)>,
    /// Whether in the last choice a settling came to rest with the last firing
    /// allowed.
    at_limit: bool,
    /// What was done, as a case has it (lists/README.md).
    log: Vec<String>,
}

/// The settings as a case has them.
fn fields(s: &Settings) -> String {
    let chain: String = s.chain.iter().map(|p| (b'0' + p) as char).collect();
    let chain = if chain.is_empty() { "-" } else { &chain };
    format!("{} {} {} {chain}", s.entries, s.driver, s.filters)
}

impl<'a> Beside<'a> {
    /// Opens both on memory of any contents, which is perhaps longer than
    /// needed.
    fn open(r: &mut Random, net: &'a Net, rust: &'a Rust, s: &Settings) -> Result<Self, String> {
        let shape = Shape::new(net, s.entries);
        let more = if r.once_in(3) { (r.below(9), r.below(9)) } else { (0, 0) };
        let (mut words, mut tags) = (words(r, shape.words() + more.0), bytes(r, shape.rows() + more.1));
        let (w, t) = (words.clone(), tags.clone());
        let ours =
            Session::open(net, s, &mut words, &mut tags).map_err(|n| format!("opening: refused {n}"))?;
        let rust = Kept::new(rust, s).ok_or("the Rust refuses what is opened")?;
        let log = vec![format!("open {} {} {}", fields(s), more.0, more.1)];
        let (twins, altered, raised, at_limit) = (BTreeMap::new(), false, None, false);
        let beside = Beside { net, shape, ours, words, tags, rust, altered, twins, raised, at_limit, log };
        beside.is_new(&w, &t)?;
        Ok(beside)
    }

    /// Whether ours is newly opened, the memory behind the memo as before.
    fn is_new(&self, words: &[u64], tags: &[u8]) -> Result<(), String> {
        let (w, t) = (self.shape.words(), self.shape.rows());
        let zero = self.words[..w].iter().all(|&x| x == 0) && self.tags[..t].iter().all(|&x| x == 0);
        let rest = self.words[w..] == words[w..] && self.tags[t..] == tags[t..];
        let s = &self.ours;
        let new = s.generation == 1 && s.dict.is_empty() && s.history == [0; 256];
        if zero && rest && new {
            Ok(())
        } else {
            Err("not as newly opened".into())
        }
    }

    /// One choice of both.
    fn choose(&mut self, budget: u64, m: &Marking, lent: (usize, usize)) -> Result<Answer, String> {
        let (w, t) = (self.shape.words() as i64, self.shape.rows() as i64);
        let less = (lent.0 as i64 - w, lent.1 as i64 - t);
        let [a, b, c, d] = m;
        self.log.push(format!("pick {budget} {a:x} {b:x} {c:x} {d:x} {} {}", less.0, less.1));
        let (old, words, tags) = (self.ours.clone(), self.words.clone(), self.tags.clone());
        let (answer, at_limit) = self.net.noting_limit(|| {
            self.ours.choose(self.net, budget, m, &mut self.words[..lent.0], &mut self.tags[..lent.1])
        });
        self.at_limit = at_limit;
        self.log.push(format!("> {}", cases::shown(answer)));
        match answer {
            Answer::Refused { number: 4 | 6 | 7 | 13, nodes, .. } => {
                if nodes != 0 || self.ours != old || self.words != words || self.tags != tags {
                    return Err(format!("{answer}, but something changed"));
                }
            }
            Answer::Refused { number, .. } => {
                self.is_new(&words, &tags)?;
                if !at_limit {
                    self.refused(number, budget, m)?;
                }
            }
            Answer::Spent { nodes } if nodes <= budget && !self.altered => {
                return Err("no child has the root's value".into());
            }
            _ if at_limit => {}
            _ => self.same(&answer, budget, m)?,
        }
        if at_limit {
            self.by_rust_rule(budget, m, lent, (old, words, tags))?;
        }
        Ok(answer)
    }

    /// A choice with a settling that came to rest with the last firing allowed,
    /// which the Rust refuses: it is held to ours by the Rust's rule, from what
    /// was before, and both go on newly opened.
    fn by_rust_rule(
        &mut self,
        budget: u64,
        m: &Marking,
        lent: (usize, usize),
        before: (Session, Vec<u64>, Vec<u8>),
    ) -> Result<(), String> {
        let (words, tags) = (before.1.clone(), before.2.clone());
        (self.ours, self.words, self.tags) = before;
        let answer = self.net.by_rust_rule(|| {
            self.ours.choose(self.net, budget, m, &mut self.words[..lent.0], &mut self.tags[..lent.1])
        });
        self.log.push(self.log[0].clone());
        match answer {
            Answer::Refused { number: 10, .. } => {
                self.is_new(&words, &tags)?;
                self.refused(10, budget, m)
            }
            _ => Err(format!("{answer} by the Rust's rule")),
        }
    }

    /// Whether the Rust shows a refusal of the search; it is renewed.
    fn refused(&mut self, number: u64, budget: u64, m: &Marking) -> Result<(), String> {
        let text = match number {
            8 => Some("do not all belong to one side"),
            10 => Some("never stop firing"),
            _ => None,
        };
        if matches!(number, 8..=10) {
            let got = self.rust.choose(budget, &self.net.counts(m));
            let same = match (&got, text) {
                (Some(Got::Error(e)), Some(text)) => e.contains(text),
                // Where an altered row answers for the root, the moves are first
                // played by the choice, which the Rust does by counts.
                (got, text) => text.is_none() && (got.is_none() || self.altered),
            };
            if !same {
                let got = got.map_or("counts".into(), |g| shown(&g, budget));
                return Err(format!("refused {number}, but the Rust {got}"));
            }
        }
        self.rust.renew();
        self.twins.clear();
        (self.altered, self.raised) = (false, None);
        Ok(())
    }

    /// Whether the Rust gives the same answer and has the same to go on with.
    fn same(&mut self, answer: &Answer, budget: u64, m: &Marking) -> Result<(), String> {
        let got = self.rust.choose(budget, &self.net.counts(m)).ok_or("the Rust goes on by counts")?;
        if !is(answer, &got) {
            return Err(format!("{answer}, but the Rust {}", shown(&got, budget)));
        }
        let (words, tags, dict) = self.rust.solver.left();
        let (history, generation) = self.rust.solver.carried();
        let (rows, n) = (self.shape.rows(), self.shape.row_words());
        if tags != &self.tags[..rows] {
            return Err("the tags differ".into());
        }
        let twins = &mut self.twins;
        for i in 0..rows {
            let (ours, theirs) = (&self.words[i * n..(i + 1) * n], &words[i * n..(i + 1) * n]);
            let still = twins.get(&i).is_some_and(|x| x.0 == ours && x.1 == theirs);
            if ours != theirs && !still {
                return Err(format!("row {i} differs: {ours:x?} {theirs:x?}"));
            }
        }
        if !dict.iter().map(|&x| f64::from_bits(x)).eq(self.ours.dict.iter().copied()) {
            return Err("the dictionaries differ".into());
        }
        let mut wanted = [0; 256];
        wanted[..history.len()].copy_from_slice(history);
        if let Some((t, began)) = self.raised {
            wanted[t] = began.saturating_add(wanted[t] - RAISED);
        }
        if wanted != self.ours.history {
            return Err("the histories differ".into());
        }
        if generation != self.ours.generation {
            return Err(format!("generation {}, the Rust's {generation}", self.ours.generation));
        }
        Ok(())
    }
}

/// A bound of a row of ours, and of the Rust's.
type Pair = (u64, u64);

/// A bound of a wide row: a number within the net's bounds; or what is read as
/// the net's own, with that; or -0.0, with 0.0.
fn wide_bound(r: &mut Random, net: &Net, own: i64) -> Pair {
    let (low, high, own) = (net.low as f64, net.high as f64, own as f64);
    let out = [f64::NAN, f64::INFINITY, -f64::INFINITY, low - 0.5, high + 1.0, -f64::NAN, 1e300];
    match r.below(8) {
        0 | 1 => (r.of(&out).to_bits(), own.to_bits()),
        2 if low <= 0.0 && 0.0 <= high => ((-0.0f64).to_bits(), 0),
        3 => (own.to_bits(), own.to_bits()),
        _ => {
            let x = low + (high - low) * r.below(33) as f64 / 32.0;
            (x.to_bits(), x.to_bits())
        }
    }
}

/// A compact row's index: one of the dictionary's; or one past all that it can
/// come to hold, which are the net's values, with that of the net's own bound.
fn index(r: &mut Random, net: &Net, dict: &[f64], own: i64) -> Pair {
    let full = net.values.len();
    let past = full + r.below(256 - full);
    let place = dict.iter().position(|&x| x == own as f64);
    match place.filter(|_| r.once_in(3)) {
        Some(i) => (r.of(&[past, full, 255]) as u64, i as u64),
        None => {
            let i = r.below(dict.len()) as u64;
            (i, i)
        }
    }
}

impl Beside<'_> {
    /// A row that a store wrote, mostly.
    fn some_row(&self, r: &mut Random) -> usize {
        let taken: Vec<usize> = (0..self.shape.rows()).filter(|&i| self.tags[i] != 0).collect();
        if taken.is_empty() || r.once_in(8) {
            r.below(self.shape.rows())
        } else {
            r.of(&taken)
        }
    }

    /// Another row's meta word (whose generation is not 0, which the Rust
    /// pins), for ours and for the Rust.
    fn meta(&self, r: &mut Random, old: u64) -> Pair {
        let best = match r.below(6) {
            0 => NO_MOVE as u64,
            1 => r.below(300) as u64,
            2 => r.below(1 << 32) as u64,
            3 => r.below(self.net.rows.len()) as u64,
            _ => old & 0xFFFF_FFFF,
        };
        let work = if r.once_in(3) { r.below(256) as u64 } else { old >> 48 & 0xFF };
        let generation = match r.below(3) {
            0 => self.ours.generation,
            1 if old >> 56 & 0x7F != 0 => old >> 56 & 0x7F,
            _ => 1 + r.below(127) as u64,
        };
        let counted = r.once_in(12) as u64;
        let meta = best | work << 48 | generation << 56 | counted << 63;
        if !self.shape.compact {
            let unused = word(r) & 0xFFFF << 32;
            return (meta | unused, meta | unused);
        }
        let keep = old >> 56 & 0x7F != 0 && r.once_in(2);
        let kept = |shift: u32| (old >> shift & 0xFF, old >> shift & 0xFF);
        let low = if keep { kept(32) } else { index(r, self.net, &self.ours.dict, self.net.low) };
        let high = if keep { kept(40) } else { index(r, self.net, &self.ours.dict, self.net.high) };
        (meta | low.0 << 32 | high.0 << 40, meta | low.1 << 32 | high.1 << 40)
    }

    /// Alters a row on both sides; true if ours is to be read as the Rust's.
    fn alter(&mut self, r: &mut Random) -> Option<bool> {
        let i = self.some_row(r);
        // Indices into an empty dictionary, and rows that differ already.
        if self.shape.compact && self.ours.dict.is_empty() || self.twins.contains_key(&i) {
            return None;
        }
        let (n, kw) = (self.shape.row_words(), self.shape.key_words);
        let tag = match r.below(8) {
            0 => 0,
            1 => r.below(256) as u8,
            2 => self.tags[self.some_row(r)],
            _ => self.tags[i],
        };
        let mut row = self.words[i * n..(i + 1) * n].to_vec();
        match r.below(10) {
            0 => {
                let from = self.some_row(r);
                row[..kw].copy_from_slice(&self.words[from * n..from * n + kw]);
            }
            1 => row[0] ^= 1 << r.below(self.net.places.min(64)),
            _ => {}
        }
        let mut theirs = row.clone();
        (row[kw], theirs[kw]) = self.meta(r, row[kw]);
        if !self.shape.compact {
            (row[kw + 1], theirs[kw + 1]) = wide_bound(r, self.net, self.net.low);
            (row[kw + 2], theirs[kw + 2]) = wide_bound(r, self.net, self.net.high);
        }
        self.write(i, tag, row, theirs)
    }

    fn write(&mut self, i: usize, tag: u8, ours: Vec<u64>, theirs: Vec<u64>) -> Option<bool> {
        let n = self.shape.row_words();
        for (j, w) in ours.iter().enumerate().filter(|(j, w)| self.words[i * n + j] != **w) {
            self.log.push(format!("poke {} {w:x}", i * n + j));
        }
        if self.tags[i] != tag {
            self.log.push(format!("poketag {i} {tag:x}"));
        }
        self.tags[i] = tag;
        self.words[i * n..(i + 1) * n].copy_from_slice(&ours);
        let (words, tags, _) = self.rust.solver.memory();
        tags[i] = tag;
        words[i * n..(i + 1) * n].copy_from_slice(&theirs);
        self.altered = true;
        let differ = ours != theirs;
        if differ {
            self.twins.insert(i, (ours, theirs));
        }
        Some(differ)
    }

    /// Forgets the rows of ours that were stored anew since they were altered,
    /// which are the Rust's again; true if there were some.
    fn forget_stored(&mut self) -> bool {
        let n = self.shape.row_words();
        let (words, before) = (&self.words, self.twins.len());
        self.twins.retain(|i, x| words[i * n..(i + 1) * n] == x.0);
        self.twins.len() < before
    }

    /// Brings a counter of ours near its end.
    fn raise(&mut self, r: &mut Random) {
        if self.raised.is_some() {
            return;
        }
        let moves = self.net.moves(&self.net.start);
        let t = if moves.is_empty() { r.below(self.net.rows.len()) } else { r.of(&moves) };
        let began = u32::MAX - r.below(3) as u32;
        self.ours.history[t] = began;
        self.rust.solver.memory().2[t] = RAISED;
        self.raised = Some((t, began));
    }
}

struct Run {
    r: Random,
    met: Met,
    choices: usize,
    with_rust: usize,
    long: usize,
}

/// Too few words or tags.
fn less(r: &mut Random, shape: &Shape) -> (usize, usize) {
    let (w, t) = (shape.words(), shape.rows());
    r.of(&[(w - 1, t), (w, t - 1), (0, t), (w, 0), (r.0 as usize % w, t)])
}

/// The settings of a session: mostly what the net admits.
fn settings(r: &mut Random, net: &Net) -> Settings {
    let mut s = random::settings(r);
    if net.goals.is_empty() {
        s.chain.retain(|&p| p < 3);
    }
    // What a choice's budget is says the choice.
    s.budget = u64::MAX;
    s
}

impl Run {
    /// What is to be noted of a choice.
    fn note(&mut self, b: &Beside, answer: &Answer, budget: u64, before: u64) {
        self.choices += 1;
        self.met.answer(answer, budget);
        let rust = !matches!(answer, Answer::Refused { number: 4 | 6 | 7 | 11 | 12 | 13, .. });
        self.with_rust += (rust && !b.at_limit) as usize;
        if b.at_limit {
            self.met.add("by the Rust's rule");
        }
        let searched = matches!(answer, Answer::Exact { .. } | Answer::None | Answer::Spent { .. });
        if searched && before == 127 && !b.at_limit {
            self.met.add("first generation again");
        }
        if b.raised.is_some_and(|(t, began)| b.ours.history[t] == u32::MAX && began != u32::MAX) {
            self.met.add("counter at its end");
        }
    }

    /// Alters what is carried, now and then.
    fn altered(&mut self, b: &mut Beside, often: bool) {
        let r = &mut self.r;
        let times = if often && r.once_in(2) { 1 + r.below(6) } else { 0 };
        for _ in 0..times {
            match b.alter(r) {
                Some(true) => self.met.add("read as the net's own"),
                Some(false) => self.met.add("altered alike"),
                None => {}
            }
        }
        if r.once_in(60) {
            b.raise(r);
        }
    }

    /// One choice: its marking, budget and lent memory. In a long session mostly
    /// none where it would be refused and all begin anew.
    fn choice(&mut self, b: &mut Beside, at: &mut Marking, long: bool) -> Result<(), String> {
        let m = scenes::marking(&mut self.r, b.net, at);
        let foreseen = scenes::foreseen(b.net, &b.ours, &m, &b.words, &b.tags);
        let r = &mut self.r;
        if long && matches!(foreseen, Answer::Refused { number: 8..=12, .. }) && !r.once_in(300) {
            *at = b.net.start;
            return Ok(());
        }
        let mut budgets = vec![scenes::budget(r, &foreseen)];
        if let Answer::Refused { nodes: n @ 1.., .. } = foreseen {
            // The least budget that it comes with: before, it is `spent`.
            if r.once_in(2) {
                budgets = vec![n - 1, n];
            }
        }
        let mut lent = (b.words.len(), b.tags.len());
        if r.once_in(40) {
            lent = less(r, &b.shape);
        }
        for budget in budgets {
            let before = b.ours.generation;
            let answer = b.choose(budget, &m, lent)?;
            self.note(b, &answer, budget, before);
            if b.forget_stored() {
                self.met.add("such a row stored");
            }
        }
        Ok(())
    }

    /// Openings of damaged sheets and settings, held to the call: refusals 1
    /// to 6 are the same, and leave all as it was.
    fn opening(&mut self, text: &str) -> Result<(), String> {
        let r = &mut self.r;
        let mut s = Settings { budget: 0, ..random::settings(r) };
        let sheet = if r.once_in(3) { text.as_bytes().to_vec() } else { random::spoiled(r, text) };
        let (mut w, mut t) = (7_168, 1_024);
        match r.below(6) {
            0 => s.entries = r.of(&[0, 1_025, u64::MAX]),
            1 => w = r.below(300),
            2 => t = r.below(12),
            3 => s.chain = vec![r.of(&[3, 4, 5])],
            _ => {}
        }
        let (words, tags) = (words(r, w), bytes(r, t));
        let (answer, _) = call(&sheet, &s, &mut words.clone(), &mut tags.clone());
        let (mut ws, mut ts) = (words.clone(), tags.clone());
        s.budget = u64::MAX;
        match (session::open(&sheet, &s, &mut ws, &mut ts), answer) {
            (Err(got), Answer::Refused { number: 1..=6, .. }) if got == answer => {
                let Answer::Refused { number, .. } = got else { unreachable!() };
                self.met.refused_opening(number);
                if ws == words && ts == tags {
                    Ok(())
                } else {
                    Err(format!("{got}, but memory was written"))
                }
            }
            (Ok(_), Answer::Refused { number: 1..=6, .. }) | (Err(_), _) => {
                Err(format!("opening, where the call has {answer}"))
            }
            (Ok(_), _) => Ok(()),
        }
    }

    fn session(&mut self, net: &Net, rust: &Rust, most: usize) -> Result<(), (String, Vec<String>)> {
        let r = &mut self.r;
        let s = settings(r, net);
        let n = match r.below(60) {
            0 => 200 + r.below(300),
            1..=9 => 20 + r.below(40),
            _ => 2 + r.below(14),
        };
        let often = r.once_in(3);
        let mut b = Beside::open(r, net, rust, &s).map_err(|why| (why, vec![]))?;
        self.met.add("opened");
        let mut at = net.start;
        for _ in 0..n.min(most) {
            self.altered(&mut b, often);
            if let Err(why) = self.choice(&mut b, &mut at, n > 127) {
                return Err((why, b.log));
            }
        }
        self.long += (b.log.iter().filter(|l| l.starts_with("pick")).count() > 127) as usize;
        Ok(())
    }
}

/// Compares so many choices from `seed` on; false on a difference, or if some
/// answer or refusal was never met.
pub fn run(seed: u64, choices: usize) -> bool {
    let mut run = Run { r: Random(seed), met: Met::default(), choices: 0, with_rust: 0, long: 0 };
    let mut sessions = 0;
    for n in 0.. {
        if run.choices >= choices {
            break;
        }
        let text = random::sheet_or_long(&mut run.r, n).text();
        let net = Net::new(sheet::read(text.as_bytes()).expect("a random sheet is rightful"));
        let rust = Rust::new(&net);
        let mut got = run.opening(&text).map_err(|why| (why, vec![]));
        for _ in 0..3 {
            got = got.and_then(|()| run.session(&net, &rust, choices.saturating_sub(run.choices)));
            sessions += 1;
        }
        if let Err((why, log)) = got {
            println!("net {n} of seed {seed}: {why}");
            println!("sheet {}\n{text}{}", text.lines().count(), log.join("\n"));
            return false;
        }
    }
    println!(
        "{} choices in {sessions} sessions, {} of over 127; {} with the Rust's answer and all that is carried the same",
        run.choices, run.long, run.with_rust
    );
    let (lines, whole) = run.met.table(&ELSE);
    print!("{lines}");
    if !whole {
        println!("something was never met");
    }
    whole
}
