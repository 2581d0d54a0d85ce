//! The differential run: the reference against the Rust, on random nets
//! with all settings and budgets around N.

use crate::random::{self, Random};
use crate::reference::{call, net::Net, sheet, Answer, Settings};
use crate::rust::{agrees, refer, Held, Rust};
use std::collections::BTreeMap;

/// A budget that stands for none.
const AMPLE: u64 = 20_000;

/// How often each answer was met: exact, none, spent, the refusals.
#[derive(Default)]
pub struct Counts(BTreeMap<String, usize>);

impl Counts {
    pub fn add(&mut self, a: &Answer) {
        let name = match a {
            Answer::Refused { number, .. } => format!("{number:2}"),
            _ => a.to_string().split(' ').next().unwrap().to_string(),
        };
        *self.0.entry(name).or_default() += 1;
    }

    /// The counts as lines; false if an answer or a refusal is missing.
    pub fn table(&self) -> (String, bool) {
        let names = (1..=12).map(|n| format!("{n:2}"));
        let (mut lines, mut whole) = (String::new(), true);
        for name in ["exact", "none", "spent"].map(String::from).into_iter().chain(names) {
            let n = self.0.get(&name).copied().unwrap_or(0);
            lines += &format!("{name:>6} {n}\n");
            whole &= n > 0;
        }
        (lines, whole)
    }
}

/// The budgets of a run: none, about N, and below it.
pub fn budgets(r: &mut Random, net: &Net, s: &Settings) -> Vec<u64> {
    let (answer, ..) = refer(net, &Settings { budget: AMPLE, ..s.clone() });
    match answer {
        Answer::Exact { nodes: n, .. } => {
            let mut all = vec![AMPLE, n, n.saturating_sub(1), n + 1, r.below(n as usize + 1) as u64, 0];
            all.dedup();
            all
        }
        Answer::Spent { .. } => vec![r.below(2_000) as u64],
        Answer::Refused { nodes, .. } => vec![AMPLE, nodes],
        Answer::None => vec![AMPLE, 0],
    }
}

/// Compares `nets` nets from `seed` on; false on a difference or if some
/// answer was never met.
pub fn run(seed: u64, nets: usize) -> bool {
    let mut r = Random(seed);
    let mut counts = Counts::default();
    let (mut calls, mut compared, mut by_rust_rule) = (0, 0, 0);
    for n in 0..nets {
        let text = random::sheet_or_long(&mut r, n).text();
        let net = Net::new(sheet::read(text.as_bytes()).expect("a random sheet is rightful"));
        let rust = Rust::new(&net);
        for _ in 0..6 {
            let s = random::settings(&mut r);
            for budget in budgets(&mut r, &net, &s) {
                let s = Settings { budget, ..s.clone() };
                calls += 1;
                match agrees(&net, &rust, &s) {
                    Ok((answer, held)) => {
                        counts.add(&answer);
                        compared += (held == Held::Same) as usize;
                        by_rust_rule += (held == Held::ByRustRule) as usize;
                    }
                    Err(why) => {
                        println!("net {n} of seed {seed}: {s:?}\n{why}\n{text}");
                        return false;
                    }
                }
            }
        }
        // Spoiled sheets and settings: the Rust has no answer to compare, but
        // a refusal leaves the memory as it was.
        let mut s = random::settings(&mut r);
        let (mut words, mut tags) = (vec![1; 7_168], vec![1; 1_024]);
        let bytes = if r.once_in(3) { text.into_bytes() } else { random::spoiled(&mut r, &text) };
        match r.below(4) {
            0 => s.entries = r.of(&[0, 1_025]),
            1 => words.truncate(r.below(300)),
            2 => tags.truncate(r.below(12)),
            _ => s.budget = 300,
        }
        let (answer, _) = call(&bytes, &s, &mut words, &mut tags);
        let input = matches!(answer, Answer::Refused { number: 1..=7, .. });
        if input && !(words.iter().all(|&w| w == 1) && tags.iter().all(|&t| t == 1)) {
            println!("net {n} of seed {seed}, spoiled: {answer}, but the memory was written");
            return false;
        }
        counts.add(&answer);
    }
    println!("{nets} nets, {calls} calls, {compared} with the Rust's answer and memo the same");
    println!("{by_rust_rule} more by the Rust's rule of settling");
    let (lines, whole) = counts.table();
    print!("{lines}");
    whole && by_rust_rule > 0
}
