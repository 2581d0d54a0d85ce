//! Nodes per second of the call and of the Rust on the same positions, from one driver in one
//! run; answers, counts, words and tags must be the same. Then how the cost of a node grows with
//! the net, the time of a whole call on 01's first sheet, and the stack that a call uses.
//! The call's time is from the sheet on; the Rust's is without its reading of the net. Times are the
//! thread's own on its processor, so that other work on the machine disturbs less.
#![allow(dead_code)]

mod call;
#[path = "../../oracle/src/draft.rs"]
mod draft;
#[path = "../../oracle/src/random.rs"]
mod random;
#[path = "../../oracle/src/reference/mod.rs"]
mod reference;
#[path = "../../oracle/src/rust.rs"]
mod rust;
mod stack;

use draft::{Arc, Draft};
use random::Random;
use reference::{memo::Shape, net::Net, sheet, Answer, Settings};
use rust::{Got, Rust};

extern "C" {
    fn clock_gettime(clock: i32, time: *mut [i64; 2]) -> i32;
}

/// Net, budget, entries, driver, filters, chain. A net with "wide" has more than 16 values, so
/// that its memo has wide rows.
type Position = (&'static str, u64, u64, u64, u64, &'static str);

const POSITIONS: [Position; 16] = [
    ("row 4 4 4", 3_000_000, 1_024, 0, 0, "012"),
    ("row 4 4 4", 10_000_000, 1_024, 2, 3, "0124"),
    ("row 5 5 4", 1_500_000, 1_024, 2, 2, "02"),
    ("row 6 6 4", 3_000_000, 1_024, 1, 1, "01234"),
    ("drop 4 5 4", 5_000_000, 100, 0, 1, "0124"),
    ("drop 5 5 4 wide", 2_000_000, 1_024, 1, 3, "012"),
    ("drop 6 7 4", 3_000_000, 1_024, 2, 1, "0124"),
    ("hex 4", 5_000_000, 1_024, 1, 0, "012"),
    ("hex 4 wide", 3_000_000, 1_024, 2, 0, "34"),
    ("domineering 5 5", 5_000_000, 200, 2, 1, "012"),
    ("domineering 6 6", 2_000_000, 256, 2, 2, ""),
    ("nim 3 4 5 5 wide", 5_000_000, 64, 2, 3, "21"),
    ("random 1 20 10", 5_000_000, 1_024, 0, 1, "0123"),
    ("random 1 40 14", 3_000_000, 1_024, 1, 2, "02"),
    ("random 1 60 22 wide", 2_000_000, 1_000, 2, 0, "4102"),
    ("random 1 80 28", 1_000_000, 512, 1, 3, "00123401"),
];

/// Two families of nets, each from small to large, for the cost of a node.
const SIZES: [&str; 9] = [
    "row 3 3 3",
    "row 4 4 4",
    "row 5 5 4",
    "row 6 6 4",
    "row 7 7 5",
    "random 1 20 10",
    "random 1 40 14",
    "random 1 60 22",
    "random 1 80 28",
];

/// A random game of 3 n + 4 places. Two sides in turn fill n cells; with more than 40 cells a half is
/// free at the start, filling one frees another, and a move uses up two. Some moves need the absence
/// of a mark, some take an opponent's mark off, some move a mark. Random sets of four cells win,
/// `wins` for each side.
fn random(seed: u64, n: usize, wins: usize) -> Draft {
    let (mut r, mut d) = (Random(seed), Draft::default());
    let open = if n > 40 { n / 2 } else { n };
    let free: Vec<usize> = (0..n).map(|c| d.place(c < open)).collect();
    let marks = [d.places(n, false), d.places(n, false)];
    let turn = [d.place(true), d.place(false)];
    let win = d.places(2, false);
    d.pay(win[0], 1);
    d.pay(win[1], -1);
    for s in 0..2 {
        let side = [1, -1][s];
        for c in 0..n {
            let t = d.turn(side, &[turn[s], free[c]], &[turn[1 - s], marks[s][c]]);
            if c + open < n {
                d.arc(Arc::Out, t, free[c + open]);
            }
            if open < n {
                d.arc(Arc::In, t, free[(c + 1 + r.below(n - 1)) % n]);
            }
            if r.once_in(4) {
                let of = r.below(2);
                d.arc(Arc::Stop, t, marks[of][r.below(n)]);
            }
        }
        for _ in 0..n / 8 {
            let (a, b) = (r.below(n), r.below(n));
            d.turn(side, &[turn[s], marks[1 - s][a]], &[turn[1 - s]]);
            let t = d.turn(side, &[turn[s], marks[s][a], free[b]], &[turn[1 - s], marks[s][b]]);
            d.arc(Arc::Stop, t, marks[s][b]);
        }
    }
    for s in 0..2 {
        for _ in 0..wins {
            let t = d.auto(&[turn[1 - s]], &[win[s]]);
            for _ in 0..4 {
                d.arc(Arc::Read, t, marks[s][r.below(n)]);
            }
        }
    }
    d
}

/// A net by its name.
fn draft_of(name: &str) -> Draft {
    let mut words: Vec<&str> = name.split(' ').collect();
    let wide = words.last() == Some(&"wide");
    if wide {
        words.pop();
    }
    let number = |i: usize| words[i].parse::<u64>().unwrap();
    let mut d = match words[0] {
        "random" => random(number(1), number(2) as usize, number(3) as usize),
        _ => draft::named(&words).unwrap(),
    };
    if wide {
        // Rewards that are never paid, so that there are more than 16 values.
        for i in 0..5 {
            let p = d.place(false);
            d.pay(p, 1 << i);
        }
    }
    d
}

/// Whether the Rust's answer is the same; the nodes.
fn same(got: &Answer, rust: &Got) -> Option<u64> {
    match (got, rust) {
        (Answer::Exact { mv, value, nodes }, Got::Exact { mv: m, value: v, nodes: n }) => {
            (mv == m && *value == *v && *nodes == *n as u64).then_some(*nodes)
        }
        (Answer::Spent { nodes }, Got::Nothing { nodes: n }) => (*nodes == *n as u64).then_some(*nodes),
        _ => None,
    }
}

/// Seconds that this thread has run.
fn now() -> f64 {
    const THREAD: i32 = 3;
    let mut time = [0; 2];
    assert_eq!(unsafe { clock_gettime(THREAD, &mut time) }, 0);
    time[0] as f64 + time[1] as f64 * 1e-9
}

/// The median of the rounds.
fn median(mut v: Vec<f64>) -> f64 {
    v.sort_by(f64::total_cmp);
    v[v.len() / 2]
}

/// What a position gives: the answer, its nodes, seconds of the call and of the Rust.
struct Measured {
    answer: Answer,
    nodes: u64,
    ours: f64,
    theirs: f64,
    net: Net,
    /// Whether the memo's rows are compact.
    compact: bool,
}

/// Measures a position, each side `again` times in a round; nothing where they differ.
fn measure(p: &Position, rounds: usize, again: usize) -> Option<Measured> {
    let text = draft_of(p.0).text();
    let chain = p.5.bytes().map(|b| b - b'0').collect();
    let s = Settings { budget: p.1, entries: p.2, driver: p.3, filters: p.4, chain };
    let net = Net::new(sheet::read(text.as_bytes()).unwrap());
    let rust = Rust::new(&net);
    let shape = Shape::new(&net, s.entries);
    let (mut ours, mut theirs, mut last) = (vec![], vec![], None);
    for _ in 0..rounds {
        let start = now();
        let mut o = rust.choose(&s);
        (1..again).for_each(|_| o = rust.choose(&s));
        theirs.push((now() - start) / again as f64);
        let (mut words, mut tags) = (vec![9; shape.words()], vec![9; shape.rows()]);
        let start = now();
        let mut got = call::call(text.as_bytes(), &s, &mut words, &mut tags);
        (1..again).for_each(|_| got = call::call(text.as_bytes(), &s, &mut words, &mut tags));
        ours.push((now() - start) / again as f64);
        last = got.as_ref().ok().and_then(|a| Some((*a, same(a, &o.got)?)));
        if last.is_none() || o.fell_back || words != o.words || tags != o.tags {
            println!("{} {s:?}: {got:?}, Rust {}: DIFFERENT", p.0, rust::show(&o, s.budget));
            return None;
        }
    }
    let (answer, nodes) = last?;
    Some(Measured { answer, nodes, ours: median(ours), theirs: median(theirs), compact: shape.compact, net })
}

/// The table of positions whose names begin so; false where one differs.
fn positions(rounds: usize, name: &str) -> bool {
    println!("| position | driver | filters | chain | entries | rows | answer | ours, nodes/s | Rust, nodes/s | Rust's time / ours |");
    println!("|---|---|---|---|---|---|---|---|---|---|");
    let mut good = true;
    for p in POSITIONS.iter().filter(|p| p.0.starts_with(name)) {
        let Some(m) = measure(p, rounds, 1) else {
            good = false;
            continue;
        };
        println!(
            "| {} | {} | {} | {} | {} | {} | {} | {:.0} | {:.0} | {:.2} |",
            p.0.trim_end_matches(" wide"),
            ["single", "scout", "MTD"][p.3 as usize],
            ["none", "must-win", "non-losing", "both"][p.4 as usize],
            if p.5.is_empty() { "-" } else { p.5 },
            p.2,
            if m.compact { "compact" } else { "wide" },
            m.answer,
            m.nodes as f64 / m.ours,
            m.nodes as f64 / m.theirs,
            m.theirs / m.ours
        );
    }
    good
}

/// The cost of a node over nets of growing size; false where an answer differs.
fn growth(rounds: usize) -> bool {
    println!("\n| net | places | transitions | moves at the start | ours, ns a node | Rust, ns a node | Rust's time / ours | ours, µs with budget 0 |");
    println!("|---|---|---|---|---|---|---|---|");
    let mut good = true;
    for name in SIZES {
        let p = (name, 500_000, 1_024, 0, 1, "012");
        // A short search is done again, up to as many nodes.
        let again = measure(&p, 1, 1).map_or(1, |m| 500_000 / m.nodes.max(1));
        let m = measure(&p, rounds, again.max(1) as usize);
        // With budget 0 a call is over at its first node: the sheet is read and the net compiled.
        let none = measure(&(name, 0, 1_024, 0, 1, "012"), rounds, 50);
        let (Some(m), Some(none)) = (m, none) else {
            good = false;
            continue;
        };
        println!(
            "| {name} | {} | {} | {} | {:.0} | {:.0} | {:.2} | {:.0} |",
            m.net.places,
            m.net.rows.len(),
            m.net.moves(&m.net.start).len(),
            m.ours * 1e9 / m.nodes as f64,
            m.theirs * 1e9 / m.nodes as f64,
            m.theirs / m.ours,
            none.ours * 1e6
        );
    }
    good
}

/// The whole call on 01's first sheet, from sheet to answer.
fn first() {
    let text = std::fs::read("sheets/first.sheet").expect("sheets/first.sheet");
    let s = Settings { budget: 1_000, entries: 1_024, driver: 1, filters: 1, chain: vec![0, 1, 2] };
    let (mut words, mut tags) = (vec![0; 7_168], vec![0; 1_024]);
    let times = (0..1_001).map(|_| {
        let start = now();
        let _ = call::call(&text, &s, &mut words, &mut tags);
        (now() - start) * 1e6
    });
    println!("\nThe whole call on the first sheet: {:.1} µs.", median(times.collect()));
}

/// The stack of a call; the lines have a goal, so that a chain can have all pieces.
fn stacks() {
    let kib = |name: &str, budget: u64| {
        let mut d = draft_of(name);
        let (a, b) = (d.place(false), d.place(false));
        d.auto(&[a], &[b]);
        d.pay(b, 1);
        let chain = vec![4, 3, 2, 1, 0, 4, 3, 2];
        let s = Settings { budget, entries: 1_024, driver: 1, filters: 3, chain };
        let text = d.text();
        let answer = call::call(text.as_bytes(), &s, &mut [0; 7_168], &mut [0; 1_024]).unwrap();
        let (mut words, mut tags) = (vec![0; 7_168], vec![0; 1_024]);
        let used = stack::used(move || {
            let _ = call::call(text.as_bytes(), &s, &mut words, &mut tags);
        });
        println!("- {name}, all filters, a chain of eight: {answer}, {:.0} KiB", used as f64 / 1024.0);
    };
    println!("\nStack, as seen on a painted stack:\n");
    kib("line 1 1", 0);
    kib("line 1 1", 1_000);
    kib("line 64 1", 1_000);
    kib("line 65 1", 1_000);
    kib("row 5 5 4", 100_000);
}

fn run() -> i32 {
    let rounds = std::env::args().nth(1).map_or(3, |n| n.parse().expect("a number of rounds"));
    if let Some(name) = std::env::args().nth(2) {
        return !positions(rounds, &name) as i32;
    }
    let good = positions(rounds, "") & growth(rounds);
    first();
    stacks();
    !good as i32
}

fn main() {
    // The Rust recurses without a limit on depth.
    let run = std::thread::Builder::new().stack_size(1 << 30).spawn(run);
    std::process::exit(run.unwrap().join().unwrap_or(2));
}
