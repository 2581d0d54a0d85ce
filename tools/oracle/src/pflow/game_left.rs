//! What choices left in a solver, which may be kept for more of them, and the
//! walk over bits, step by step; a child of the solver's module.

use super::{Bits, Game, Solver, Walk, INLINE};

impl Solver<'_> {
    /// The memo's words, tags and dictionary.
    pub fn left(&self) -> (&[u64], &[u8], &[u64]) {
        self.tt.left()
    }

    /// The history, and the memo's generation.
    pub fn carried(&self) -> (&[u32], u64) {
        (&self.history, self.tt.generation())
    }

    /// The memo's words and tags, and the history, to be altered.
    pub fn memory(&mut self) -> (&mut [u64], &mut [u8], &mut [u32]) {
        let (words, tags) = self.tt.memory();
        (words, tags, &mut self.history)
    }

    /// Another budget, for the choices from now on.
    pub fn limit(&mut self, budget: usize) {
        self.budget = budget;
    }
}

/// A marking as bits, with its enabled set.
#[derive(Clone, Copy)]
pub struct Position(Bits);

/// How playing a move ended.
#[derive(Clone, Copy)]
pub enum Ended {
    Settled,
    Spilled,
    Endless,
}

impl Position {
    /// A dense marking of zeros and ones as a position.
    pub fn new(g: &Game, counts: &[i64]) -> Option<Self> {
        let bits = g.bits.marking(counts)?;
        let (mut mk, mut en) = ([0; INLINE], [0; INLINE]);
        mk[..bits.len()].copy_from_slice(&bits);
        g.bits.enabled_words(&mk, &mut en[..g.bits.set_words()]);
        Some(Position(Bits { mk, en }))
    }

    /// The words of the marking, and those of the set.
    pub fn words(&self) -> [u64; 8] {
        [self.0.mk, self.0.en].concat().try_into().unwrap()
    }

    /// The moves, into `out`.
    pub fn list(&self, g: &Game, out: &mut Vec<usize>) {
        self.0.moves(g, out)
    }

    pub fn moves(&self, g: &Game) -> Vec<usize> {
        let mut moves = vec![];
        self.list(g, &mut moves);
        moves
    }

    pub fn over(&self, g: &Game) -> bool {
        self.0.over(g)
    }

    /// The side to move, where there is one.
    pub fn side(&self, g: &Game) -> Option<f64> {
        let moves = self.moves(g);
        if moves.is_empty() {
            return None;
        }
        g.mover(&moves).ok()
    }

    pub fn score(&self, g: &Game) -> f64 {
        self.0.score(g).unwrap()
    }

    /// As `BitModel` has it: `u32::MAX` where no 0/1 marking enables `t`.
    pub fn deficit(&self, g: &Game, t: usize) -> u64 {
        g.bits.deficit(t, &self.0.mk) as u64
    }

    /// Fires `t` with the set; false if it spills.
    pub fn fire(&mut self, g: &Game, t: usize) -> bool {
        g.bits.fire_tracked(t, &mut self.0.mk, &mut self.0.en)
    }

    pub fn play(&mut self, g: &Game, t: usize) -> Ended {
        match self.0.play(g, t) {
            Ok(true) => Ended::Settled,
            Ok(false) => Ended::Spilled,
            Err(_) => Ended::Endless,
        }
    }
}
