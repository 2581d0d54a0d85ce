//! Walks on nets: the list that the program walk_check replays, and what the
//! Rust gives on it. lists/README.md says its form.

use crate::list::{fnv, Line, Reader};
use crate::random::{self, Random};
use crate::reference::{
    net::{Marking, Net},
    sheet, Stop,
};
use crate::rust::Rust;
use pflow::game::{
    ours::{Ended, Position},
    Game,
};

const SEED: u64 = 20_260;
/// Random nets that have a move, and the most bytes of one's sheet.
const NETS: usize = 70;
const BYTES: usize = 9_000;
/// The most moves of a walk, so that a line has at most 127 bytes.
const MOVES: usize = 60;

/// A walk by the Rust, and beside it by our own reading. (A settling that comes
/// to rest with the last firing allowed, which the Rust refuses, goes on from
/// where its bits stand then.)
struct Walk<'a> {
    net: &'a Net,
    game: &'a Game,
    start: Position,
    at: Position,
    marking: Marking,
    /// What the hash takes so far.
    words: Vec<u64>,
}

impl<'a> Walk<'a> {
    fn new(net: &'a Net, rust: &'a Rust) -> Self {
        let (game, counts) = rust.position();
        let start = Position::new(game, counts).unwrap();
        let mut walk = Walk { net, game, start, at: start, marking: net.start, words: vec![] };
        walk.see();
        walk
    }

    fn moves(&self) -> Vec<usize> {
        self.at.moves(self.game)
    }

    /// Back to the start, if no move is left.
    fn resume(&mut self) {
        if self.at.over(self.game) {
            (self.at, self.marking) = (self.start, self.net.start);
        }
    }

    /// Plays a move; how its play ended. One that does not settle leaves the
    /// position as it was.
    fn play(&mut self, t: usize) -> Ended {
        self.resume();
        let mut next = self.at;
        let mut ended = next.play(self.game, t);
        match (ended, self.net.noting_limit(|| self.net.play(&self.marking, t))) {
            (Ended::Settled, (Ok(m), false)) => (self.at, self.marking) = (next, m),
            // The Rust refuses here what is at rest: it does not look again.
            (Ended::Endless, (Ok(m), true)) => {
                ended = Ended::Settled;
                (self.at, self.marking) = (next, m);
            }
            (Ended::Spilled, (Err(Stop::Refused(9)), _)) | (Ended::Endless, (Err(Stop::Refused(10)), _)) => {}
            _ => panic!("move {t} ends otherwise by our reading"),
        }
        self.words.push(ended as u64);
        self.see();
        ended
    }

    /// What is seen of the position.
    fn see(&mut self) {
        let (game, at) = (self.game, &self.at);
        let moves = at.moves(game);
        let mut words = at.words().to_vec();
        words.push(moves.len() as u64);
        words.extend(moves.iter().map(|&t| t as u64));
        words.push(match at.side(game) {
            Some(s) if s > 0.0 => 1,
            Some(_) => 2,
            None => 0,
        });
        words.push(at.over(game) as u64);
        words.push((at.score(game) + 0.0).to_bits());
        for t in 0..self.net.rows.len() {
            words.extend([at.deficit(game, t), moves.contains(&t) as u64]);
        }
        assert_eq!(words, self.by_reading(), "our reading sees another position");
        self.words.extend(words);
    }

    fn by_reading(&self) -> Vec<u64> {
        let (net, m) = (self.net, &self.marking);
        let moves = net.moves(m);
        let mut words = m.to_vec();
        let mut set = [0; 4];
        (0..net.rows.len()).filter(|&t| net.enabled(m, t)).for_each(|t| set[t / 64] |= 1 << (t % 64));
        words.extend(set);
        words.push(moves.len() as u64);
        words.extend(moves.iter().map(|&t| t as u64));
        words.push(match moves.is_empty() || net.side(&moves).is_err() {
            true => 0,
            false => [1, 2][(net.side(&moves).unwrap() < 0) as usize],
        });
        words.push(net.is_final(m) as u64);
        words.push((net.score(m) as f64).to_bits());
        for t in 0..net.rows.len() {
            words.extend([net.deficit(m, t).unwrap_or(u32::MAX as u64), moves.contains(&t) as u64]);
        }
        words
    }

    /// Moves at random; how each play ended.
    fn wander(&mut self, r: &mut Random, n: usize) -> (String, Vec<Ended>) {
        let (mut line, mut ends) = (String::new(), vec![]);
        for _ in 0..n.min(MOVES) {
            self.resume();
            let moves = self.moves();
            if moves.is_empty() {
                break;
            }
            let t = r.of(&moves);
            line += &format!("{t:02x}");
            ends.push(self.play(t));
        }
        (line, ends)
    }

    /// The line that walk_check writes.
    fn line(&self) -> String {
        let hash = fnv(self.words.iter().flat_map(|w| w.to_le_bytes()));
        format!("{} {} {hash:016x}\n", self.net.rows.len(), self.net.places)
    }
}

/// A list being made, and how many nets, and plays by their end, it has.
#[derive(Default)]
struct List {
    text: String,
    nets: usize,
    ends: [usize; 3],
}

impl List {
    /// Adds a sheet with a walk of at most `n` moves; how many it has.
    fn add(&mut self, sheet: &[u8], r: &mut Random, n: usize) -> Option<usize> {
        let net = Net::new(sheet::read(sheet).ok()?);
        let rust = Rust::new(&net);
        let (moves, ended) = Walk::new(&net, &rust).wander(r, n);
        self.text += "s\n";
        for line in std::str::from_utf8(sheet).ok()?.lines() {
            self.text += &format!("|{line}\n");
        }
        self.text += &format!("w{moves}\n");
        self.nets += 1;
        ended.iter().for_each(|&e| self.ends[e as usize] += 1);
        Some(ended.len())
    }
}

/// The list: the sheets by hand, each with so many moves as its `w` says, and
/// random ones.
pub fn make(by_hand: &str) -> Option<String> {
    let (mut r, mut list) = (Random(SEED), List::default());
    list.text += "# The walks that crate walk_check replays: made by `oracle make-walks`.\n";
    let mut reader = Reader::default();
    for line in by_hand.lines() {
        match reader.line(line)? {
            Line::Walk(n) => {
                list.text += &format!("# {}\n", reader.name);
                list.add(&reader.sheet, &mut r, n.trim().parse().ok()?)?;
            }
            Line::Quiet => {}
            _ => return None,
        }
    }
    list.text += "# random nets\n";
    let mut left = NETS;
    while left > 0 {
        let sheet = random::sheet(&mut r).text();
        if sheet.len() <= BYTES && list.add(sheet.as_bytes(), &mut r, MOVES)? > 0 {
            left -= 1;
        }
    }
    let [settled, spilled, endless] = list.ends;
    let (nets, moves) = (list.nets, settled + spilled + endless);
    eprintln!("{nets} nets, {moves} moves: {settled} settled, {spilled} spilled, {endless} endless");
    Some(list.text)
}

/// What walk_check must write for a list.
pub fn replay(list: &str) -> Option<String> {
    let mut reader = Reader::default();
    let mut out = String::new();
    for line in list.lines() {
        match reader.line(line)? {
            Line::Walk(moves) => {
                let net = Net::new(sheet::read(&reader.sheet).ok()?);
                let rust = Rust::new(&net);
                let mut walk = Walk::new(&net, &rust);
                for i in (0..moves.len()).step_by(2) {
                    walk.play(usize::from_str_radix(moves.get(i..i + 2)?, 16).ok()?);
                }
                out += &walk.line();
            }
            Line::Quiet => {}
            _ => return None,
        }
    }
    Some(out)
}
