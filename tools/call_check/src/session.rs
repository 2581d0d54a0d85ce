//! A session through its C entries, its words and all that is lent on memory of our own with guards on
//! both sides.

use crate::call::{decoded, guarded, inner, intact, BYTE, WORD};
use crate::reference::{net::Marking, Answer, Settings};

extern "C" {
    fn keymove_session_words() -> u64;
    fn keymove_open(
        session: *mut u64,
        session_len: usize,
        sheet: *const u8,
        sheet_len: usize,
        entries: u64,
        driver: u64,
        filters: u64,
        chain: *const u8,
        chain_len: usize,
        words: *mut u64,
        words_len: usize,
        tags: *mut u8,
        tags_len: usize,
        out: *mut u64,
        out_len: usize,
    );
    fn keymove_pick(
        session: *mut u64,
        session_len: usize,
        budget: u64,
        m0: u64,
        m1: u64,
        m2: u64,
        m3: u64,
        words: *mut u64,
        words_len: usize,
        tags: *mut u8,
        tags_len: usize,
        out: *mut u64,
        out_len: usize,
    );
}

/// Words that are lent behind a session's, and have to stay as they are.
const BEHIND: usize = 3;

/// What opening gave.
pub enum Opening {
    Opened,
    Refused(Answer),
}

/// The words of a session.
pub struct Words(Vec<u64>);

/// How much of what there is an entry is given.
#[derive(Clone, Copy)]
pub struct Given {
    /// Words of the session.
    pub session: usize,
    /// Words for the answer.
    pub out: usize,
}

/// As many words as a session takes.
pub fn size() -> usize {
    unsafe { keymove_session_words() as usize }
}

/// All of a session's words, those behind them, and four words for the answer.
pub fn whole() -> Given {
    Given { session: size() + BEHIND, out: 4 }
}

/// A pointer that is not read where there is nothing.
fn at<T>(x: &mut [T]) -> *mut T {
    if x.is_empty() {
        std::ptr::NonNull::dangling().as_ptr()
    } else {
        x.as_mut_ptr()
    }
}

impl Words {
    pub fn new() -> Self {
        Words(guarded(&vec![WORD; size() + BEHIND], WORD))
    }

    /// The same words at another address; those here come to hold others.
    pub fn move_away(&mut self) {
        let there = self.0.clone();
        self.0.fill(!WORD);
        self.0 = there;
    }

    pub fn inner(&mut self) -> &mut [u64] {
        inner(&mut self.0)
    }

    pub fn is(&self, other: &Words) -> bool {
        self.0 == other.0
    }

    pub fn copy(&self) -> Self {
        Words(self.0.clone())
    }

    /// Calls an entry with the session's words, the lent memory and the words for the answer, which
    /// it leaves; an error if something else was written.
    fn entry(
        &mut self,
        given: Given,
        words: &mut [u64],
        tags: &mut [u8],
        f: impl FnOnce(&mut [u64], &mut [u64], &mut [u8], &mut [u64]),
    ) -> Result<Vec<u64>, String> {
        let (mut w, mut t) = (guarded(words, WORD), guarded(tags, BYTE));
        let mut out = guarded(&vec![WORD; given.out], WORD);
        f(&mut inner(&mut self.0)[..given.session], inner(&mut w), inner(&mut t), inner(&mut out));
        if !intact(&w, WORD) || !intact(&t, BYTE) || !intact(&out, WORD) || !intact(&self.0, WORD) {
            return Err("written outside the lent memory".into());
        }
        if inner(&mut self.0)[size()..].iter().any(|&x| x != WORD) {
            return Err("written behind the session's words".into());
        }
        words.copy_from_slice(inner(&mut w));
        tags.copy_from_slice(inner(&mut t));
        Ok(inner(&mut out).to_vec())
    }

    /// Opens a sheet; the words for the answer.
    pub fn open_raw(
        &mut self,
        given: Given,
        sheet: &[u8],
        s: &Settings,
        words: &mut [u64],
        tags: &mut [u8],
    ) -> Result<Vec<u64>, String> {
        let (mut sh, mut ch) = (guarded(sheet, BYTE), guarded(&s.chain, BYTE));
        let (sheet_at, chain_at) = (at(inner(&mut sh)), at(inner(&mut ch)));
        let out = self.entry(given, words, tags, |session, words, tags, out| unsafe {
            keymove_open(
                at(session),
                session.len(),
                sheet_at,
                sheet.len(),
                s.entries,
                s.driver,
                s.filters,
                chain_at,
                s.chain.len(),
                at(words),
                words.len(),
                at(tags),
                tags.len(),
                at(out),
                out.len(),
            )
        })?;
        if !intact(&sh, BYTE) || !intact(&ch, BYTE) || inner(&mut sh) != sheet || inner(&mut ch) != s.chain {
            return Err("the sheet or the chain was written".into());
        }
        Ok(out)
    }

    /// Opens a sheet.
    pub fn open(
        &mut self,
        given: Given,
        sheet: &[u8],
        s: &Settings,
        words: &mut [u64],
        tags: &mut [u8],
    ) -> Result<Opening, String> {
        match &self.open_raw(given, sheet, s, words, tags)?[..4] {
            [4, 0, 0, 0] => Ok(Opening::Opened),
            [3, number, line, 0] => {
                Ok(Opening::Refused(Answer::Refused { number: *number, line: *line, nodes: 0 }))
            }
            out => Err(format!("no answer of an opening: {out:x?}")),
        }
    }

    /// A choice; the words for the answer.
    pub fn pick_raw(
        &mut self,
        given: Given,
        budget: u64,
        m: &Marking,
        words: &mut [u64],
        tags: &mut [u8],
    ) -> Result<Vec<u64>, String> {
        self.entry(given, words, tags, |session, words, tags, out| unsafe {
            keymove_pick(
                at(session),
                session.len(),
                budget,
                m[0],
                m[1],
                m[2],
                m[3],
                at(words),
                words.len(),
                at(tags),
                tags.len(),
                at(out),
                out.len(),
            )
        })
    }

    /// A choice.
    pub fn pick(
        &mut self,
        given: Given,
        budget: u64,
        m: &Marking,
        words: &mut [u64],
        tags: &mut [u8],
    ) -> Result<Answer, String> {
        let out = self.pick_raw(given, budget, m, words, tags)?;
        if out[4..].iter().any(|&x| x != WORD) {
            return Err("written behind the answer's words".into());
        }
        decoded(&out[..4])
    }
}
