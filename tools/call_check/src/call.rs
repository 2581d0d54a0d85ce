//! The call through its C entry, on memory of our own with guards on both sides.

use crate::reference::{Answer, Settings};

/// The sources without their clauses, as Rust.
#[cfg(feature = "plain")]
#[allow(warnings)]
pub mod plain {
    include!(concat!(env!("OUT_DIR"), "/plain.rs"));
}

extern "C" {
    fn keymove_choose(
        sheet: *const u8,
        sheet_len: usize,
        budget: u64,
        entries: u64,
        driver: u64,
        filters: u64,
        chain: *const u8,
        chain_len: usize,
        words: *mut u64,
        words_len: usize,
        tags: *mut u8,
        tags_len: usize,
        out: *mut u64,
        out_len: usize,
    );
}

/// The four words as an answer, or why they are none.
pub fn decoded(out: &[u64]) -> Result<Answer, String> {
    let &[kind, a, b, nodes] = out else { return Err("not four words".into()) };
    let value = f64::from_bits(b);
    match kind {
        0 if !value.is_nan() && b != (-0.0f64).to_bits() => {
            Ok(Answer::Exact { mv: a as usize, value, nodes })
        }
        1 if a == 0 && b == 0 && nodes == 0 => Ok(Answer::None),
        2 if a == 0 && b == 0 => Ok(Answer::Spent { nodes }),
        3 => Ok(Answer::Refused { number: a, line: b, nodes }),
        _ => Err(format!("no answer: {out:x?}")),
    }
}

/// Guards before and behind each buffer.
const GUARD: usize = 16;
pub const WORD: u64 = 0x5EED_5EED_5EED_5EED;
pub const BYTE: u8 = 0xD5;

/// A copy of `inner` between two guards.
pub fn guarded<T: Copy>(inner: &[T], guard: T) -> Vec<T> {
    [&[guard; GUARD], inner, &[guard; GUARD]].concat()
}

pub fn intact<T: PartialEq>(all: &[T], guard: T) -> bool {
    all[..GUARD].iter().chain(&all[all.len() - GUARD..]).all(|x| *x == guard)
}

/// What is lent between the guards.
pub fn inner<T>(all: &mut [T]) -> &mut [T] {
    let end = all.len() - GUARD;
    &mut all[GUARD..end]
}

/// The call with `n` words for the answer, which it leaves; an error if it wrote outside of what is
/// lent. The sheet and the chain stand between guards too, and must be as before; an empty one has
/// an address that cannot be read.
fn raw(sheet: &[u8], s: &Settings, words: &mut [u64], tags: &mut [u8], n: usize) -> Result<Vec<u64>, String> {
    let (mut w, mut t, mut out) = (guarded(words, WORD), guarded(tags, BYTE), guarded(&vec![WORD; n], WORD));
    let (mut sh, mut ch) = (guarded(sheet, BYTE), guarded(&s.chain, BYTE));
    unsafe {
        keymove_choose(
            if sheet.is_empty() { [].as_ptr() } else { inner(&mut sh).as_ptr() },
            sheet.len(),
            s.budget,
            s.entries,
            s.driver,
            s.filters,
            if s.chain.is_empty() { [].as_ptr() } else { inner(&mut ch).as_ptr() },
            s.chain.len(),
            inner(&mut w).as_mut_ptr(),
            words.len(),
            inner(&mut t).as_mut_ptr(),
            tags.len(),
            inner(&mut out).as_mut_ptr(),
            n,
        );
    }
    if !intact(&w, WORD) || !intact(&t, BYTE) || !intact(&out, WORD) {
        return Err("written outside the lent memory".into());
    }
    if !intact(&sh, BYTE) || !intact(&ch, BYTE) || inner(&mut sh) != sheet || inner(&mut ch) != s.chain {
        return Err("the sheet or the chain was written".into());
    }
    words.copy_from_slice(inner(&mut w));
    tags.copy_from_slice(inner(&mut t));
    Ok(inner(&mut out).to_vec())
}

/// The call.
pub fn call(sheet: &[u8], s: &Settings, words: &mut [u64], tags: &mut [u8]) -> Result<Answer, String> {
    match decoded(&raw(sheet, s, words, tags, 4)?)? {
        Answer::Exact { value, .. } if value.fract() != 0.0 => Err(format!("{value} is no whole number")),
        answer => Ok(answer),
    }
}

/// Whether the call with `n` words for the answer, fewer than four, does nothing; with more than
/// four it leaves the others as they were.
pub fn odd(sheet: &[u8], s: &Settings, words: &mut [u64], tags: &mut [u8], n: usize) -> Result<bool, String> {
    let before = (words.to_vec(), tags.to_vec());
    let out = raw(sheet, s, words, tags, n)?;
    if n < 4 {
        return Ok(out.iter().all(|&x| x == WORD) && before.0 == words && before.1 == tags);
    }
    Ok(out[4..].iter().all(|&x| x == WORD) && decoded(&out[..4]).is_ok())
}
