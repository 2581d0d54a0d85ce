//! What random sessions are made of, markings and budgets about N; and what was
//! met in them.

use crate::random::Random;
use crate::reference::net::{Marking, Net};
use crate::reference::session::Session;
use crate::reference::Answer;
use std::collections::BTreeMap;

/// A budget that stands for none.
const AMPLE: u64 = 20_000;
const LINE: usize = 80;

/// One bit on or off.
fn flip(m: &mut Marking, p: usize) {
    m[p / 64] ^= 1 << (p % 64);
}

/// What a line of random moves leads to, of `most` moves or until no move is
/// left or can be played.
fn after(r: &mut Random, net: &Net, from: &Marking, most: usize) -> Marking {
    let mut m = *from;
    for _ in 0..most {
        let moves = net.moves(&m);
        let next = if moves.is_empty() { None } else { net.play(&m, r.of(&moves)).ok() };
        match next {
            Some(next) => m = next,
            None => break,
        }
    }
    m
}

/// Tokens on any of the net's places.
fn scattered(r: &mut Random, net: &Net) -> Marking {
    let (mut m, few) = ([0; 4], 2 + r.below(5));
    (0..net.places).filter(|_| r.once_in(few)).for_each(|p| flip(&mut m, p));
    m
}

/// The marking of the next choice, `at` being where play stands: what play
/// leads to, that with a bit changed, or any; one in twenty has a bit that is
/// no place's.
pub fn marking(r: &mut Random, net: &Net, at: &mut Marking) -> Marking {
    let mut m = *at;
    match r.below(20) {
        0..=6 => m = after(r, net, at, 1),
        7 => m = after(r, net, at, LINE),
        8 => {
            let moves = 2 + r.below(4);
            m = after(r, net, at, moves);
        }
        10 => m = net.start,
        11 => {
            let moves = r.below(8);
            m = after(r, net, &net.start, moves);
        }
        12 => m = scattered(r, net),
        13 => {
            let tries: Vec<Marking> = (0..20).map(|_| scattered(r, net)).collect();
            m = tries.into_iter().find(|m| net.settled(m)).unwrap_or(m);
        }
        14 => flip(&mut m, r.below(net.places)),
        15 if net.places < 256 => {
            let p = if r.once_in(2) { net.places } else { net.places + r.below(256 - net.places) };
            flip(&mut m, p);
            return m;
        }
        _ => {}
    }
    // Play goes on from a final position now and then, to see it again.
    if !net.is_final(&m) || r.once_in(8) {
        *at = m;
    }
    if net.is_final(at) && r.once_in(4) {
        *at = net.start;
    }
    m
}

/// What a choice would answer without a budget that matters: the session and
/// the lent memory stay as they are.
pub fn foreseen(net: &Net, s: &Session, m: &Marking, words: &[u64], tags: &[u8]) -> Answer {
    s.clone().choose(net, AMPLE, m, &mut words.to_vec(), &mut tags.to_vec())
}

/// A budget by what is foreseen: ample, N, about it, none at all.
pub fn budget(r: &mut Random, foreseen: &Answer) -> u64 {
    let n = match foreseen {
        Answer::Exact { nodes, .. } | Answer::Refused { nodes, .. } => *nodes,
        Answer::None => 0,
        Answer::Spent { .. } => return r.below(2_000) as u64,
    };
    match r.below(12) {
        0 => n,
        1 => n.saturating_sub(1),
        2 => n + 1,
        3 => r.below(n as usize + 1) as u64,
        4 if r.once_in(2) => 0,
        5 if r.once_in(4) => r.of(&[10_000_001, u64::MAX]),
        _ => AMPLE,
    }
}

pub fn word(r: &mut Random) -> u64 {
    (r.below(1 << 32) as u64) << 32 | r.below(1 << 32) as u64
}

pub fn words(r: &mut Random, n: usize) -> Vec<u64> {
    (0..n).map(|_| word(r)).collect()
}

pub fn bytes(r: &mut Random, n: usize) -> Vec<u8> {
    (0..n).map(|_| r.below(256) as u8).collect()
}

/// How often each kind of answer, and of what else a run must meet, was met.
#[derive(Default)]
pub struct Met(BTreeMap<String, usize>);

impl Met {
    pub fn add(&mut self, what: &str) {
        *self.0.entry(what.into()).or_default() += 1;
    }

    /// The answer of a choice within a budget.
    pub fn answer(&mut self, answer: &Answer, budget: u64) {
        match answer {
            Answer::Refused { number, .. } => self.add(&format!("refused {number}")),
            Answer::Spent { nodes } if *nodes <= budget => self.add("no child"),
            Answer::Spent { .. } => self.add("spent"),
            Answer::None => self.add("none"),
            Answer::Exact { nodes, .. } => {
                self.add("exact");
                if *nodes == 0 {
                    self.add("exact with count 0");
                }
            }
        }
    }

    pub fn refused_opening(&mut self, number: u64) {
        self.add(&format!("opening refused {number}"));
    }

    /// The counts as lines; false if an answer, a refusal or one of the rest is
    /// missing.
    pub fn table(&self, rest: &[&str]) -> (String, bool) {
        let answers = ["exact", "none", "spent"].map(String::from).into_iter();
        let refusals = (4..=13).filter(|&n| n != 5).map(|n| format!("refused {n}"));
        let openings = (1..=6).map(|n| format!("opening refused {n}"));
        let rest = rest.iter().map(|x| x.to_string());
        let (mut lines, mut whole) = (String::new(), true);
        for name in answers.chain(refusals).chain(openings).chain(rest) {
            let n = self.0.get(&name).copied().unwrap_or(0);
            lines += &format!("{name:>24} {n}\n");
            whole &= n > 0;
        }
        (lines, whole)
    }
}
