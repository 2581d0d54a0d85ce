//! The call on random sheets and settings. Each call is held to our own reading of 01 and 02
//! (tools/oracle/src/reference) on memory with the same random contents: the answer, the count,
//! every word and tag that is lent, and that nothing else is written. For the same net and settings
//! our reading is held to the Rust (`rust::agrees`), so the call is held to the Rust through our
//! reading: the answer, the count, every word and tag of the memo and its dictionary, where the Rust
//! has an answer. For refusals 5, 8 and 10 that is its error, for 9 its change to counted markings,
//! and from a count of 1 on its answer and its memo with one node less; for 11 and 12 the latter
//! alone; for 1 to 4, 6 and 7 it has none. Where a settling comes to rest with the last firing
//! allowed, the Rust is held to our reading by the Rust's rule (02, L2).
//! Sessions are held to our own reading of them in the same way (sessions.rs); tools/oracle holds
//! that to the Rust.
#![allow(dead_code)]

mod call;
#[path = "../../oracle/src/compare.rs"]
mod compare;
#[path = "../../oracle/src/draft.rs"]
mod draft;
#[path = "../../oracle/src/random.rs"]
mod random;
#[path = "../../oracle/src/reference/mod.rs"]
mod reference;
#[path = "../../oracle/src/rust.rs"]
mod rust;
#[path = "../../oracle/src/scenes.rs"]
mod scenes;
mod session;
mod sessions;

use compare::{budgets, Counts};
use random::Random;
use reference::{memo::Shape, net::Net, sheet, Answer, Settings};
use rust::{Held, Rust};
use sessions::Sessions;
use std::collections::BTreeSet;

/// The most bytes of a sheet.
const BYTES: usize = 65_536;

const GAMES: [&str; 11] = [
    "row 3 3 3",
    "row 3 4 3",
    "row 4 4 3",
    "drop 3 3 3",
    "drop 3 4 3",
    "drop 4 4 3",
    "hex 3",
    "domineering 3 4",
    "domineering 4 4",
    "nim 1 2 3",
    "nim 3 3",
];

/// Lines of about 64 moves: a node 65 moves down is refused as Deep.
const DEEP: [&str; 10] = [
    "line 63 1",
    "line 64 1",
    "line 64 -1",
    "line 65 1",
    "line 66 -1",
    "detour 64",
    "detour 65",
    "dropped 63",
    "dropped 64",
    "dropped 65",
];

/// What a run has seen.
#[derive(Default)]
struct Seen {
    counts: Counts,
    calls: usize,
    with_rust: usize,
    /// Calls in which a settling came to rest with the last firing allowed.
    by_rust_rule: usize,
    differ: usize,
    small_stack: usize,
    /// Kinds of calls whose input was not refused.
    kinds: BTreeSet<String>,
    sessions: Sessions,
}

/// The kinds of calls that a run must have seen.
fn kinds() -> BTreeSet<String> {
    let settings = (0..12).map(|i| format!("driver {} filters {}", i / 4, i % 4));
    let chains = (0..=8).map(|n| format!("chain of {n}"));
    let pieces = (0..5).map(|p| format!("piece {p}"));
    let rest = [
        "a piece again",
        "compact rows",
        "wide rows",
        "1 entry",
        "1024 entries",
        "budget 0",
        "as many words as needed",
        "one word more",
        "many words more",
        "as many tags as needed",
        "one tag more",
        "many tags more",
        "no word",
        "one word less",
        "no tag",
        "one tag less",
        "a sheet of 65536 bytes",
        "a sheet of 65537 bytes",
        "an empty sheet",
        "a game",
        "a deep line",
        "a long settling",
    ];
    settings.chain(chains).chain(pieces).chain(rest.map(String::from)).collect()
}

/// Runs `f` on a thread with 4 MiB of stack, which a call has to do with.
fn on_small_stack<T: Send>(f: impl FnOnce() -> T + Send) -> T {
    std::thread::scope(|scope| {
        let thread = std::thread::Builder::new().stack_size(4 << 20).spawn_scoped(scope, f);
        thread.unwrap().join().unwrap()
    })
}

/// As the oracle's, with every size of the memo and more chains.
fn settings(r: &mut Random, net: &Net) -> Settings {
    let mut s = random::settings(r);
    if r.once_in(2) {
        s.entries = 1 + r.below(1_024) as u64;
    }
    if r.once_in(2) {
        // Pieces 3 and 4 are for nets with goals.
        let pieces = if net.goals.is_empty() && !r.once_in(20) { 3 } else { 5 };
        s.chain = (0..r.below(9)).map(|_| r.below(pieces) as u8).collect();
    }
    s
}

/// How much to lend where `need` is enough: mostly that or a little more.
fn lent(r: &mut Random, need: usize) -> usize {
    match r.below(60) {
        0 => 0,
        1 => need - 1,
        2 => r.below(need),
        3 => need - 1 - r.below(need.min(3)),
        4 => need + r.below(400),
        5..=14 => need + 1,
        15..=19 => need + r.below(5),
        _ => need,
    }
}

/// A sheet of just as many bytes as it may have: `void` again and again, for a transition with two
/// digits and for one with three.
fn long(r: &mut Random) -> String {
    let mut d = random::sheet(r);
    while d.roles.len() > 99 {
        d = random::sheet(r);
    }
    for t in d.roles.len()..=100 {
        d.roles.push((false, 1));
        d.voids.push(t);
    }
    let text = d.text();
    let left = BYTES - text.len();
    let three = left % 14;
    text + &"void 99 - - -\n".repeat((left - 15 * three) / 14) + &"void 100 - - -\n".repeat(three)
}

fn game(name: &str) -> String {
    draft::named(&name.split(' ').collect::<Vec<_>>()).unwrap().text()
}

impl Seen {
    /// One call beside our own reading, on the same memory; what differs. `small`: on 4 MiB of
    /// stack.
    fn differs(
        &mut self,
        r: &mut Random,
        text: &[u8],
        s: &Settings,
        lent: (usize, usize),
        small: bool,
    ) -> Result<Answer, String> {
        let before = (scenes::words(r, lent.0), scenes::bytes(r, lent.1));
        let (mut rw, mut rt) = before.clone();
        let (want, _) = reference::call(text, s, &mut rw, &mut rt);
        let deep = matches!(want, Answer::Refused { number: 12, .. });
        let (mut w, mut t) = before.clone();
        let got = if small || deep || r.once_in(20) {
            self.small_stack += 1;
            on_small_stack(|| call::call(text, s, &mut w, &mut t))
        } else {
            call::call(text, s, &mut w, &mut t)
        }?;
        if got != want {
            return Err(format!("{got}, our own reading has {want}"));
        }
        if let Answer::Refused { number: 1..=7, .. } = got {
            if (&w, &t) != (&before.0, &before.1) {
                return Err(format!("{got}, but the memory was written"));
            }
        }
        if w != rw || t != rt {
            return Err(format!("{got}: the memory left differs"));
        }
        if r.once_in(50) {
            let n = r.of(&[0, 1, 2, 3, 5, 9]);
            if !call::odd(text, s, &mut w, &mut t, n)? {
                return Err(format!("with {n} words for the answer the call did something else"));
            }
        }
        Ok(got)
    }

    fn add(&mut self, text: &[u8], s: &Settings, got: Result<Answer, String>) {
        self.calls += 1;
        if self.calls % 100_000 == 0 {
            eprintln!("{} calls, {} differ", self.calls, self.differ);
        }
        match got {
            Ok(answer) => self.counts.add(&answer),
            Err(why) => {
                self.differ += 1;
                if self.differ <= 3 {
                    println!("{s:?}: {why}\n{}", String::from_utf8_lossy(text));
                }
            }
        }
    }

    /// Notes what kinds of calls a call on memory of these lengths is.
    fn note(&mut self, s: &Settings, shape: &Shape, (words, tags): (usize, usize)) {
        let mut is = |kind: &str, yes: bool| {
            if yes && !self.kinds.contains(kind) {
                self.kinds.insert(kind.into());
            }
        };
        let (w, t) = (shape.words(), shape.rows());
        is("no word", words == 0 && tags >= t);
        is("one word less", words + 1 == w && tags >= t);
        is("no tag", tags == 0 && words >= w);
        is("one tag less", tags + 1 == t && words >= w);
        if words < w || tags < t {
            return;
        }
        is("as many words as needed", words == w);
        is("one word more", words == w + 1);
        is("many words more", words > w + 100);
        is("as many tags as needed", tags == t);
        is("one tag more", tags == t + 1);
        is("many tags more", tags > t + 100);
        is("compact rows", shape.compact);
        is("wide rows", !shape.compact);
        is("1 entry", s.entries == 1);
        is("1024 entries", s.entries == 1_024);
        is("budget 0", s.budget == 0);
        is(&format!("driver {} filters {}", s.driver, s.filters), true);
        is(&format!("chain of {}", s.chain.len()), true);
        s.chain.iter().for_each(|p| is(&format!("piece {p}"), true));
        is("a piece again", s.chain.iter().any(|p| s.chain.iter().filter(|q| p == *q).count() > 1));
    }

    /// One net: settings, budgets around N, memory around the need.
    fn net(&mut self, r: &mut Random) {
        let (text, kind) = match r.below(120) {
            0 => (game(r.of(&GAMES)), "a game"),
            1 => (game(r.of(&DEEP)), "a deep line"),
            2 => (long(r), "a sheet of 65536 bytes"),
            3..=5 => (random::long_settling(r).text(), "a long settling"),
            _ => (random::sheet(r).text(), ""),
        };
        if !kind.is_empty() {
            self.kinds.insert(kind.into());
        }
        let deep = kind == "a deep line";
        let net = Net::new(sheet::read(text.as_bytes()).expect("a random sheet is rightful"));
        let rust = Rust::new(&net);
        for _ in 0..if kind == "a game" { 1 } else { 3 } {
            let mut s = settings(r, &net);
            if deep && r.once_in(2) {
                s.filters = 3;
            }
            let shape = Shape::new(&net, s.entries);
            for budget in budgets(r, &net, &s) {
                let s = Settings { budget, ..s.clone() };
                let lent = (lent(r, shape.words()), lent(r, shape.rows()));
                self.note(&s, &shape, lent);
                let mut got = self.differs(r, text.as_bytes(), &s, lent, deep);
                if got.is_ok() && lent.0 >= shape.words() && lent.1 >= shape.rows() {
                    // Our reading is held to the Rust, with its memo.
                    match rust::agrees(&net, &rust, &s) {
                        Ok((_, Held::Same)) => self.with_rust += 1,
                        Ok((_, Held::ByRustRule)) => self.by_rust_rule += 1,
                        Ok((_, Held::Alone)) => {}
                        Err(why) => got = Err(why),
                    }
                }
                self.add(text.as_bytes(), &s, got);
            }
        }
        self.spoiled(r, &text);
        self.sessions.on(r, &text, &net);
    }

    /// Damaged sheets, and settings out of their ranges.
    fn spoiled(&mut self, r: &mut Random, text: &str) {
        let mut s = Settings { budget: 300, ..random::settings(r) };
        let mut bytes = if r.once_in(3) { text.as_bytes().to_vec() } else { random::spoiled(r, text) };
        match r.below(8) {
            0 => s.entries = r.of(&[0, 1_025, u64::MAX]),
            1 => s.driver = r.of(&[3, 256, u64::MAX]),
            2 => s.filters = r.of(&[4, 256, u64::MAX]),
            3 => s.budget = r.of(&[10_000_001, u64::MAX]),
            4 => s.chain = vec![r.of(&[5, 16, 255])],
            5 => s.chain = vec![0; 9 + r.below(300)],
            _ => {}
        }
        if text.len() == BYTES {
            // Without its last byte, with one more, or as it is.
            bytes = text.as_bytes()[..BYTES - r.below(2)].to_vec();
            if r.once_in(2) {
                bytes = [text.as_bytes(), &[r.of(b"\n0-")]].concat();
                self.kinds.insert("a sheet of 65537 bytes".into());
            }
        } else if r.once_in(100) {
            bytes = match r.below(3) {
                0 => [bytes, vec![b'\n'; BYTES + 1]].concat(),
                _ => vec![],
            };
            if bytes.is_empty() {
                self.kinds.insert("an empty sheet".into());
            }
        }
        let got = self.differs(r, &bytes, &s, (7_168, 1_024), false);
        self.add(&bytes, &s, got);
    }
}

fn run() -> i32 {
    let mut args = std::env::args().skip(1).map(|x| x.parse::<u64>());
    let (Some(Ok(seed)), Some(Ok(calls))) = (args.next(), args.next()) else {
        eprintln!("call_check SEED CALLS");
        return 2;
    };
    let (mut r, mut seen) = (Random(seed), Seen::default());
    while seen.calls < calls as usize {
        seen.net(&mut r);
    }
    let (lines, whole) = seen.counts.table();
    print!("{lines}");
    let missing: Vec<String> = kinds().difference(&seen.kinds).cloned().collect();
    println!("kinds of calls: {} of {}", seen.kinds.len(), kinds().len());
    if !missing.is_empty() {
        println!("never called: {}", missing.join(", "));
    }
    println!("{} calls had 4 MiB of stack", seen.small_stack);
    println!("{} calls by the Rust's rule of settling", seen.by_rust_rule);
    println!("{} calls, {} with the Rust, {} differ", seen.calls, seen.with_rust, seen.differ);
    let sessions = seen.sessions.report();
    (seen.differ > 0 || !whole || !missing.is_empty() || !sessions || seen.by_rust_rule == 0) as i32
}

fn main() {
    // The Rust recurses without a limit on depth.
    let run = std::thread::Builder::new().stack_size(1 << 30).spawn(run);
    std::process::exit(run.unwrap().join().unwrap_or(2));
}
