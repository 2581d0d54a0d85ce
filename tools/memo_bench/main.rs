//! Gets and stores at 1,024 entries, the Rust's memo, built unchanged, and the crate memo_bench's, on the same keys and the same contents.
#![allow(dead_code)]

mod memo;

use memo::{left, Entry, Key, Table};
use std::time::Instant;

extern "C" {
    fn memo_gets(
        words: *mut u64, words_len: usize, tags: *mut u8, tags_len: usize, dict: *mut u64, dict_len: usize,
        n: usize, entries: usize, places: usize, compact: bool, keys: *const u64, keys_len: usize,
    ) -> u64;
    fn memo_stores(
        words: *mut u64, words_len: usize, tags: *mut u8, tags_len: usize, dict: *mut u64, dict_len: usize,
        n: usize, entries: usize, places: usize, compact: bool, keys: *const u64, keys_len: usize,
    ) -> usize;
}

const ENTRIES: usize = 1024;

/// So many keys drawn from a pool, `kw` words each and the rest zero.
fn keys(kw: usize, pool: u64, count: usize, seed: u64) -> Vec<u64> {
    let mut s = seed;
    let mut out = vec![];
    for _ in 0..count {
        s ^= s << 13;
        s ^= s >> 7;
        s ^= s << 17;
        let at = s % pool;
        out.extend((0..4).map(|j| {
            if j < kw { (at * 4 + j as u64 + 1).wrapping_mul(0xD6E8_FEB8_6659_FD93) } else { 0 }
        }));
    }
    out
}

fn key(k: &[u64]) -> Key {
    [k[0], k[1], k[2], k[3]]
}

#[inline(never)]
fn gets(t: &Table, keys: &[u64]) -> u64 {
    let mut sum = 0u64;
    for k in keys.chunks_exact(4) {
        let found = match t.get(&key(k), false) {
            Some(e) if e.lo < e.hi => 1,
            Some(e) => e.best as u64 % 65536,
            None => 7,
        };
        sum = sum.wrapping_add(found);
    }
    sum
}

#[inline(never)]
fn stores(t: &mut Table, keys: &[u64]) -> usize {
    for k in keys.chunks_exact(4) {
        let best = (k[0] / 4 % 256) as u32;
        let e = if k[0] % 2 == 0 { Entry { lo: 0.0, hi: 1.0, best } } else { Entry { lo: -1.0, hi: 0.0, best } };
        t.store(&key(k), false, e, (k[1] % 65536) as usize);
    }
    left::dict(t).len()
}

fn ns<R>(count: usize, f: &mut dyn FnMut() -> R) -> (f64, R) {
    let start = Instant::now();
    let r = f();
    (start.elapsed().as_nanos() as f64 / count as f64, r)
}

/// The median of the rounds.
fn median(mut v: Vec<f64>) -> f64 {
    v.sort_by(f64::total_cmp);
    v[v.len() / 2]
}

fn compare(kw: usize, compact: bool, pool: u64, name: &str) {
    let (count, rounds) = (400_000, 15);
    let all = keys(kw, pool, count, 88_172_645_463_325_252);
    let mut rust = Table::new(ENTRIES, kw, compact);
    rust.age();
    let (mut words, mut tags, mut dict) = (left::words(&rust).to_vec(), left::tags(&rust).to_vec(), vec![0u64; 255]);
    let places = 64 * kw;
    let mut n = 0;
    let mut times = [vec![], vec![], vec![], vec![]];
    for _ in 0..rounds {
        let (t, a) = ns(count, &mut || stores(&mut rust, &all));
        times[0].push(t);
        let (t, b) = ns(count, &mut || unsafe {
            memo_stores(
                words.as_mut_ptr(), words.len(), tags.as_mut_ptr(), tags.len(), dict.as_mut_ptr(), dict.len(),
                n, ENTRIES, places, compact, all.as_ptr(), all.len(),
            )
        });
        times[1].push(t);
        n = b;
        assert_eq!(a, b);
        assert!(left::words(&rust) == words && left::tags(&rust) == tags && left::dict(&rust) == &dict[..n]);
        let (t, a) = ns(count, &mut || gets(&rust, &all));
        times[2].push(t);
        let (t, b) = ns(count, &mut || unsafe {
            memo_gets(
                words.as_mut_ptr(), words.len(), tags.as_mut_ptr(), tags.len(), dict.as_mut_ptr(), dict.len(),
                n, ENTRIES, places, compact, all.as_ptr(), all.len(),
            )
        });
        times[3].push(t);
        assert_eq!(a, b);
    }
    let [a, b, c, d] = times.map(median);
    println!(
        "{kw} key words, {}, {name}: store {b:.1} ns, Rust {a:.1} ns, ratio {:.2}; get {d:.1} ns, Rust {c:.1} ns, ratio {:.2}",
        if compact { "compact" } else { "wide" }, b / a, d / c,
    );
}

fn main() {
    for (pool, name) in [(700, "700 keys"), (2000, "2,000 keys"), (100_000, "100,000 keys")] {
        for compact in [true, false] {
            for kw in [2, 4] {
                compare(kw, compact, pool, name);
            }
        }
    }
}
