//! Calls the Rust on a net, and holds the reference's answer against it.

use crate::reference::{call_net, memo::Shape, net::Net, Answer, Settings};
use pflow::error::Error;
use pflow::filter::Filter;
use pflow::game::{Game, Solver};
use pflow::indexed::{ours::Rows, IndexedModel};
use pflow::order::{Chain, Piece};
use std::cell::Cell;
use std::panic::{catch_unwind, AssertUnwindSafe};

pub enum Got {
    Exact {
        mv: usize,
        value: f64,
        nodes: usize,
    },
    /// No move, or the budget ran out.
    Nothing {
        nodes: usize,
    },
    Error(String),
}

pub struct Outcome {
    pub got: Got,
    /// Whether the counted walk ran, after a spill.
    pub fell_back: bool,
    pub words: Vec<u64>,
    pub tags: Vec<u8>,
    pub dict: Vec<u64>,
}

pub struct Rust {
    game: Game,
    /// The same game, which panics where the counted walk begins.
    without_counts: Game,
    start: Vec<i64>,
}

thread_local!(static QUIET: Cell<bool> = const { Cell::new(false) });

/// Runs `f`; nothing if it panics, without a message.
pub fn quietly<T>(f: impl FnOnce() -> T) -> Option<T> {
    static ONCE: std::sync::Once = std::sync::Once::new();
    ONCE.call_once(|| {
        let old = std::panic::take_hook();
        std::panic::set_hook(Box::new(move |info| {
            if !QUIET.get() {
                old(info)
            }
        }));
    });
    let before = QUIET.replace(true);
    let got = catch_unwind(AssertUnwindSafe(f)).ok();
    QUIET.set(before);
    got
}

fn piece(n: u8) -> Piece {
    Piece::parse(Piece::NAMES[n as usize]).unwrap()
}

impl Rust {
    pub fn new(net: &Net) -> Self {
        let rows: Vec<Rows> = net
            .rows
            .iter()
            .map(|t| Rows {
                ins: &t.ins,
                outs: &t.outs,
                reads: &t.reads,
                stops: &t.stops,
                caps: &t.caps,
                void: t.void,
            })
            .collect();
        let game = |ix: IndexedModel| {
            let auto = net.rows.iter().map(|t| t.role.unwrap().0).collect();
            let sign = net.rows.iter().map(|t| t.role.unwrap().1 as f64).collect();
            let reward = net.pays.iter().map(|&(p, r)| (p, r as f64)).collect();
            Game::new(ix, auto, sign, reward)
        };
        let ix = IndexedModel::from_rows(net.places, &rows);
        Rust {
            without_counts: game(ix.clone().without_counts()),
            game: game(ix),
            start: net.counts(&net.start),
        }
    }

    /// The game and its start.
    pub fn position(&self) -> (&Game, &[i64]) {
        (&self.game, &self.start)
    }

    /// `Solver::choose` on a new solver.
    pub fn choose(&self, s: &Settings) -> Outcome {
        match quietly(|| self.on(&self.without_counts, s)) {
            Some(outcome) => outcome,
            None => Outcome { fell_back: true, ..self.on(&self.game, s) },
        }
    }

    fn on(&self, game: &Game, s: &Settings) -> Outcome {
        let mut outcome = Outcome {
            got: Got::Nothing { nodes: 0 },
            fell_back: false,
            words: vec![],
            tags: vec![],
            dict: vec![],
        };
        let mut solver = match solver(game, s) {
            Ok(solver) => solver,
            Err(Error::Game(text)) => {
                outcome.got = Got::Error(text);
                return outcome;
            }
        };
        outcome.got = got(&mut solver, &self.start);
        let (words, tags, dict) = solver.left();
        outcome.words = words.to_vec();
        outcome.tags = tags.to_vec();
        outcome.dict = dict.to_vec();
        outcome
    }
}

/// A solver with these settings.
fn solver<'a>(game: &'a Game, s: &Settings) -> pflow::error::Result<Solver<'a>> {
    let pieces: Vec<Piece> = s.chain.iter().map(|&p| piece(p)).collect();
    let filters = [Filter::MustWin, Filter::NonLosing];
    let filters: Vec<Filter> = (0..2).filter(|i| s.filters >> i & 1 == 1).map(|i| filters[i]).collect();
    Ok(Solver::with_chain(game, s.budget as usize, Chain::new(&pieces)?)?
        .with_memo(s.entries as usize)
        .with_filters(&filters)
        .with_null_window(s.driver == 1)
        .with_mtd_f(s.driver == 2)
        .with_play(false))
}

/// A solver's choice.
fn got(solver: &mut Solver, marking: &[i64]) -> Got {
    let got = solver.choose(marking);
    let nodes = solver.nodes();
    match got {
        Ok(Some(c)) => Got::Exact { mv: c.t, value: c.value.unwrap(), nodes },
        Ok(None) => Got::Nothing { nodes },
        Err(Error::Game(text)) => Got::Error(text),
    }
}

/// A solver that is kept for one choice after another.
pub struct Kept<'a> {
    pub solver: Solver<'a>,
    game: &'a Game,
    settings: Settings,
}

impl<'a> Kept<'a> {
    /// Nothing where the Rust refuses the settings.
    pub fn new(rust: &'a Rust, s: &Settings) -> Option<Self> {
        let game = &rust.without_counts;
        Some(Kept { solver: solver(game, s).ok()?, game, settings: s.clone() })
    }

    /// A new solver for the old one.
    pub fn renew(&mut self) {
        self.solver = solver(self.game, &self.settings).ok().unwrap();
    }

    /// A choice; nothing where the counted walk would have to go on, after
    /// which the solver is to be renewed.
    pub fn choose(&mut self, budget: u64, marking: &[i64]) -> Option<Got> {
        self.solver.limit(budget as usize);
        quietly(|| got(&mut self.solver, marking))
    }
}

/// What lent memory holds before a call.
const WORD: u64 = 0xA5A5;
const TAG: u8 = 0xA5;

/// What a call of the reference gives and leaves: words, tags, dictionary.
type Left = (Answer, Vec<u64>, Vec<u8>, Vec<f64>);

/// A call of the reference with the most memory that a memo takes.
pub fn refer(net: &Net, s: &Settings) -> Left {
    let (mut words, mut tags) = (vec![WORD; 7_168], vec![TAG; 1_024]);
    let (answer, dict) = call_net(net, s, &mut words, &mut tags);
    (answer, words, tags, dict)
}

/// How an answer was held to the Rust.
#[derive(Clone, Copy, PartialEq)]
pub enum Held {
    /// The Rust shows the same.
    Same,
    /// A settling came to rest with the last firing allowed, where the Rust's
    /// rule is another: it shows what our reading has by that rule, refusal 10.
    ByRustRule,
    /// 01 has an answer here that the Rust has not.
    Alone,
}

/// Whether the Rust shows the same.
pub fn agrees(net: &Net, rust: &Rust, s: &Settings) -> Result<(Answer, Held), String> {
    let (left, at_limit) = net.noting_limit(|| refer(net, s));
    let answer = left.0;
    if !at_limit {
        let same = agrees_on(net, rust, s, left)?;
        return Ok((answer, if same { Held::Same } else { Held::Alone }));
    }
    if !left_right(&answer, net, s, &left.1, &left.2) {
        return Err(format!("{answer}: the memory left is not as 01 says"));
    }
    net.by_rust_rule(|| match refer(net, s) {
        left @ (Answer::Refused { number: 10, .. }, ..) => agrees_on(net, rust, s, left),
        (other, ..) => Err(format!("{answer}, and by the Rust's rule {other}")),
    })?;
    Ok((answer, Held::ByRustRule))
}

/// Whether the Rust shows what a call of the reference left: `Ok(false)` if
/// 01 has an answer here that the Rust has not.
fn agrees_on(net: &Net, rust: &Rust, s: &Settings, left: Left) -> Result<bool, String> {
    let (answer, words, tags, dict) = left;
    if !left_right(&answer, net, s, &words, &tags) {
        return Err(format!("{answer}: the memory left is not as 01 says"));
    }
    let refusal = |text: &str| match rust.choose(s) {
        Outcome { got: Got::Error(e), fell_back: false, .. } if e.contains(text) => Ok(true),
        o => Err(format!("reference {answer}, Rust {}", show(&o, s.budget))),
    };
    let compared = match answer {
        Answer::Refused { number: 5, .. } => refusal("order piece"),
        Answer::Refused { number: 1..=7, .. } => return Ok(false),
        Answer::Refused { number: 8, .. } => refusal("do not all belong to one side"),
        Answer::Refused { number: 10, .. } => refusal("never stop firing"),
        Answer::Refused { number: 9, .. } => match rust.choose(s) {
            o if o.fell_back => Ok(true),
            o => Err(format!("reference {answer}, Rust {}", show(&o, s.budget))),
        },
        Answer::Refused { .. } => Ok(false),
        _ => same(&answer, net, s, rust.choose(s), &words, &tags, &dict),
    }?;
    // A refusal's count is the least budget that it comes with: the Rust
    // counts as many nodes before it.
    if let Answer::Refused { nodes: nodes @ 1.., .. } = answer {
        let less = Settings { budget: nodes - 1, ..s.clone() };
        let (spent, words, tags, dict) = refer(net, &less);
        if spent != (Answer::Spent { nodes }) {
            return Err(format!("{answer}, but {spent} with less"));
        }
        same(&spent, net, &less, rust.choose(&less), &words, &tags, &dict)?;
    }
    Ok(compared)
}

/// Whether memory is untouched by refusals 1 to 7 and behind the memo, and
/// the memo zero after `none` and the other refusals.
fn left_right(answer: &Answer, net: &Net, s: &Settings, words: &[u64], tags: &[u8]) -> bool {
    let shape = Shape::new(net, s.entries);
    let (n, rows) = match answer {
        Answer::Refused { number: 1..=7, .. } => (0, 0),
        _ => (shape.words(), shape.rows()),
    };
    let zero = words[..n].iter().all(|&w| w == 0) && tags[..rows].iter().all(|&t| t == 0);
    let untouched = words[n..].iter().all(|&w| w == WORD) && tags[rows..].iter().all(|&t| t == TAG);
    untouched && (zero || matches!(answer, Answer::Exact { .. } | Answer::Spent { .. }))
}

/// Whether the Rust gives an answer that is no refusal.
pub fn is(answer: &Answer, got: &Got) -> bool {
    match (answer, got) {
        (Answer::Exact { mv, value, nodes }, Got::Exact { mv: m, value: v, nodes: n }) => {
            mv == m && *value == *v && *nodes == *n as u64
        }
        (Answer::None, Got::Nothing { nodes }) => *nodes == 0,
        (Answer::Spent { nodes }, Got::Nothing { nodes: n }) => *nodes == *n as u64,
        _ => false,
    }
}

/// Whether the Rust's answer, its whole memo and its dictionary are the same.
fn same(
    answer: &Answer,
    net: &Net,
    s: &Settings,
    o: Outcome,
    words: &[u64],
    tags: &[u8],
    dict: &[f64],
) -> Result<bool, String> {
    if !is(answer, &o.got) || o.fell_back {
        return Err(format!("reference {answer}, Rust {}", show(&o, s.budget)));
    }
    let shape = Shape::new(net, s.entries);
    if o.words[..] != words[..shape.words()] || o.tags[..] != tags[..shape.rows()] {
        return Err(format!("{answer}: the memos differ"));
    }
    // The Rust's sums of no rewards are -0.0.
    if !o.dict.iter().map(|&x| f64::from_bits(x)).eq(dict.iter().copied()) {
        return Err(format!("{answer}: the dictionaries differ"));
    }
    Ok(true)
}

/// As `keymove` prints it, or the Rust's error.
pub fn show(o: &Outcome, budget: u64) -> String {
    let text = shown(&o.got, budget);
    if o.fell_back {
        text + " (by counts)"
    } else {
        text
    }
}

pub fn shown(got: &Got, budget: u64) -> String {
    match got {
        Got::Exact { mv, value, nodes } => format!("exact {mv} {value} {nodes}"),
        Got::Nothing { nodes: 0 } => "none - - 0".into(),
        Got::Nothing { nodes } if *nodes as u64 > budget => format!("spent - - {nodes}"),
        Got::Nothing { nodes } => format!("neither - - {nodes}"),
        Got::Error(text) => format!("error: {text}"),
    }
}
