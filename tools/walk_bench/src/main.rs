//! Firings with the tracked set, and listing and playing moves: the crate
//! walk_bench beside bits.rs and game.rs, on the same nets and the same moves.
#![allow(dead_code)]

#[path = "../../oracle/src/draft.rs"]
mod draft;
#[path = "../../oracle/src/reference/mod.rs"]
mod reference;
#[path = "../../oracle/src/rust.rs"]
mod rust;

use pflow::game::{
    ours::{Ended, Position},
    Game,
};
use reference::{net::Net, sheet};
use std::time::Instant;

extern "C" {
    fn walk_compile(
        text: *const u8,
        text_len: usize,
        rows: *mut u64,
        c: *mut u64,
        cells: *mut u64,
    ) -> bool;
    fn walk_fire(c: *const u64, pos: *const u64, steps: u64) -> u64;
    fn walk_play(c: *const u64, pos: *const u64, list: *mut u64, seed: u64, turns: u64) -> u64;
}

/// Firings, and turns, of a round.
const COUNT: u64 = 1_000_000;
const SEED: u64 = 88_172_645_463_325_252;

/// The net's words, or nothing if its sheet is refused.
fn compile(text: &str) -> Option<Vec<u64>> {
    let (mut rows, mut c, mut cells) = (vec![0; 6_560], vec![0; 75_264], vec![0; 65_536]);
    let done = unsafe {
        walk_compile(
            text.as_ptr(),
            text.len(),
            rows.as_mut_ptr(),
            c.as_mut_ptr(),
            cells.as_mut_ptr(),
        )
    };
    done.then_some(c)
}

fn next(s: u64) -> u64 {
    let a = s ^ (s << 13);
    let b = a ^ (a >> 7);
    b ^ (b << 17)
}

/// The lowest number of a set.
fn lowest(set: [u64; 4]) -> Option<usize> {
    (0..4).find(|&q| set[q] != 0).map(|q| q * 64 + set[q].trailing_zeros() as usize)
}

/// What `walk_fire` does.
#[inline(never)]
fn fire(g: &Game, mut p: Position, steps: u64) -> u64 {
    let mut sum = 0;
    for i in 0..steps {
        let [.., a, b, c, d] = p.words();
        let t = if i % 2 == 0 { lowest([a, b, c, d]) } else { lowest([c, d, a, b]).map(|t| (t + 128) % 256) };
        let Some(t) = t else { return sum };
        if !p.fire(g, t) {
            return sum;
        }
        sum = (sum * 3 + t as u64) % (1 << 32);
    }
    p.words().iter().fold(sum, |sum, w| sum ^ w)
}

/// What `walk_play` does.
#[inline(never)]
fn play(g: &Game, start: Position, seed: u64, turns: u64) -> u64 {
    let (mut p, mut s, mut sum, mut list) = (start, seed, 0, vec![]);
    for _ in 0..turns {
        list.clear();
        p.list(g, &mut list);
        if list.is_empty() {
            p = start;
            continue;
        }
        let drawn = next(s);
        let t = list[(drawn % list.len() as u64) as usize];
        if let Ended::Settled = p.play(g, t) {
            s = drawn;
            sum = (sum * 3 + t as u64) % (1 << 32);
        } else {
            p = start;
        }
    }
    sum
}

fn timed(f: impl FnOnce() -> u64) -> (f64, u64) {
    let start = Instant::now();
    let r = f();
    (start.elapsed().as_nanos() as f64 / COUNT as f64, r)
}

/// The median of the rounds.
fn median(mut v: Vec<f64>) -> f64 {
    v.sort_by(f64::total_cmp);
    v[v.len() / 2]
}

fn compare(name: &str, rounds: usize) {
    let words: Vec<&str> = name.split(' ').collect();
    let text = draft::named(&words).unwrap().text();
    let net = Net::new(sheet::read(text.as_bytes()).unwrap());
    let rust = rust::Rust::new(&net);
    let (game, counts) = rust.position();
    let start = Position::new(game, counts).unwrap();
    let (c, pos) = (compile(&text).unwrap(), start.words());
    let mut list = [0; 256];
    let mut times = [vec![], vec![], vec![], vec![]];
    for _ in 0..rounds {
        let (t, a) = timed(|| fire(game, start, COUNT));
        times[0].push(t);
        let (t, b) = timed(|| unsafe { walk_fire(c.as_ptr(), pos.as_ptr(), COUNT) });
        times[1].push(t);
        assert_eq!(a, b);
        let (t, a) = timed(|| play(game, start, SEED, COUNT));
        times[2].push(t);
        let (t, b) = timed(|| unsafe {
            walk_play(c.as_ptr(), pos.as_ptr(), list.as_mut_ptr(), SEED, COUNT)
        });
        times[3].push(t);
        assert_eq!(a, b);
    }
    let fires = fire(game, start, COUNT) != fire(game, start, COUNT - 1);
    let [a, b, c, d] = times.map(median);
    let size = format!("{name}, {} places, {} transitions", net.places, net.rows.len());
    if fires {
        println!("{size}: firing {b:.1} ns, Rust {a:.1} ns, ratio {:.2}", b / a);
    }
    println!("{size}: listing and playing {d:.1} ns, Rust {c:.1} ns, ratio {:.2}", d / c);
}

fn main() {
    let rounds = std::env::args().nth(1).map_or(15, |n| n.parse().expect("a number of rounds"));
    for name in ["ring 256", "ring 64", "row 3 3 3", "row 6 6 4", "drop 4 4 3", "hex 4", "domineering 6 6"] {
        compare(name, rounds);
    }
}
