//! The runs of the program memo_check on the Rust's memo: the lines that it
//! must write. The last three, of rows that no store wrote, are document 02's
//! reading: the Rust has none.

use super::super::{Entry, Key, Table};
use std::fmt::Write;

const PRIME: u64 = 0x100_0000_01B3;

fn next(s: u64) -> u64 {
    let a = s ^ s << 13;
    let b = a ^ a >> 7;
    b ^ b << 17
}

fn byte(h: u64, b: u8) -> u64 {
    (h ^ b as u64).wrapping_mul(PRIME)
}

fn word(h: u64, w: u64) -> u64 {
    w.to_le_bytes().into_iter().fold(h, byte)
}

/// A whole number of size below `span`.
fn value(r: u64, span: u64) -> f64 {
    let v = (r % span) as f64;
    if r >> 20 & 1 == 0 { v } else { 0.0 - v }
}

fn key(at: u64, kw: usize) -> Key {
    std::array::from_fn(|j| if j < kw { (at * 4 + j as u64 + 1).wrapping_mul(0xD6E8_FEB8_6659_FD93) } else { 0 })
}

fn best(r: u64) -> u32 {
    match r % 257 {
        256 => u32::MAX,
        t => t as u32,
    }
}

fn replay(entries: usize, kw: usize, compact: bool, mut seed: u64) -> String {
    let mut t = Table::new(entries, kw, compact);
    t.age();
    let mut h = 0xCBF2_9CE4_8422_2325;
    let count = 400 + 24 * entries;
    for i in 0..count {
        let span = match (compact, i * 2 < count) {
            (true, true) => 9,
            (true, false) => 300,
            (false, _) => 1_000_001,
        };
        let a = next(seed);
        let b = next(a);
        let c = next(b);
        seed = c;
        let k = key(a / 64 % (2 * entries as u64 + 1), kw);
        match b % 64 {
            0..=23 => {
                h = match t.get(&k, false) {
                    Some(e) => word(word(word(h, e.lo.to_bits()), e.hi.to_bits()), e.best as u64),
                    None => word(h, 7),
                }
            }
            24 => t.age(),
            _ => {
                let (lo, hi) = (value(b / 64, span), value(c / 64, span));
                let e = Entry { lo, hi, best: best(a >> 32) };
                t.store(&k, false, e, (c & 0xFFFF) as usize);
            }
        }
    }
    let (words, tags, dict) = t.left();
    let h = words.iter().fold(h, |h, &w| word(h, w));
    let h = tags.iter().fold(h, |h, &b| byte(h, b));
    let h = dict.iter().fold(h, |h, &w| word(h, w));
    format!("{entries} {kw} {} {} {h}\n", compact as u8, dict.len())
}

/// A store: the key's first words, the bounds, the best move, the nodes.
type Store = ([u64; 3], f64, f64, u32, usize);

const NONE: u32 = u32::MAX;

/// Six stores in one bucket: one is met with its row, and the last replaces
/// the weakest.
const SIX: [Store; 6] = [
    ([1, 0, 0], -1.0, 1.0, 0, 3),
    ([2, 0, 0], 0.0, 0.0, 1, 1),
    ([3, 0, 0], -1.0, 0.0, NONE, 0),
    ([1, 0, 0], 0.0, 1.0, 1, 1),
    ([4, 0, 0], 1.0, 1.0, 2, 9),
    ([5, 0, 0], -1.0, -1.0, 0, 2),
];

/// Ten stores in two buckets: both fill, and the second is used.
const TEN: [Store; 10] = [
    ([1, 0, 1], -4.0, 5.0, 1, 2),
    ([2, 0, 2], -3.0, 5.0, 2, 4),
    ([3, 0, 3], -2.0, 5.0, 3, 1),
    ([4, 0, 4], -1.0, 5.0, 4, 3),
    ([5, 0, 5], 0.0, 5.0, 5, 0),
    ([6, 0, 6], 1.0, 5.0, 6, 2),
    ([7, 0, 7], 2.0, 5.0, 7, 4),
    ([8, 0, 8], 3.0, 5.0, 8, 1),
    ([9, 0, 9], 4.0, 5.0, 9, 3),
    ([10, 0, 10], 5.0, 5.0, 10, 0),
];

fn listed<T: Copy + Into<u64>>(name: &str, all: &[T]) -> String {
    let words = all.iter().map(|&x| format!(" {}", x.into()));
    name.to_string() + &words.collect::<String>() + "\n"
}

/// A short run, written out whole.
fn written(entries: usize, kw: usize, compact: bool, stores: &[Store]) -> String {
    let mut t = Table::new(entries, kw, compact);
    t.age();
    let full = |k: [u64; 3]| [k[0], k[1], k[2], 0];
    for &(k, lo, hi, best, nodes) in stores {
        t.store(&full(k), false, Entry { lo, hi, best }, nodes);
    }
    let (words, tags, dict) = t.left();
    let mut out = listed("words", words) + &listed("tags", tags) + &listed("dictionary", dict);
    for &(k, ..) in stores {
        let got = t.get(&full(k), false);
        let shown = got.map(|e| format!("{} {} {}", e.lo.to_bits(), e.hi.to_bits(), e.best));
        writeln!(out, "get {}", shown.unwrap_or("-".into())).unwrap();
    }
    out
}

pub fn all() -> String {
    let mut out = String::new();
    let mut i = 0;
    for entries in [1, 2, 3, 4, 5, 7, 8, 1023, 1024] {
        for compact in [false, true] {
            for kw in [2, 3, 4] {
                out += &replay(entries, kw, compact, 88_172_645_463_325_252 + i);
                i += 1;
            }
        }
    }
    out += &written(5, 2, true, &SIX);
    out += &written(8, 3, false, &TEN);
    let (low, high) = ((-1_000_000f64).to_bits(), 1_000_000f64.to_bits());
    out + &format!("get {low} {high} {NONE}\nget {low} 0 10\nget -\n")
}
