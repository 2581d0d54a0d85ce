//! Our own plain reading of 01, of sessions (02, L1) and of the end of a
//! settling (02, L2): the call from sheet
//! to answer, with the reader, the refusals, the counts and what is left in the
//! lent memory.
//! It is compared with the Rust wherever 01 says that they agree, and says
//! the answer where the Rust has no counterpart.

pub mod memo;
pub mod net;
pub mod search;
pub mod session;
pub mod sheet;

use memo::Shape;
use net::Net;
use session::Session;
use std::fmt;

/// Why a run ends without a value.
#[derive(Debug)]
pub enum Stop {
    Spent,
    Refused(u64),
    /// No child has the root's value: only where somebody else wrote the
    /// lent memory.
    NoChild,
}

#[derive(Clone, Copy, PartialEq, Debug)]
pub enum Answer {
    Exact { mv: usize, value: f64, nodes: u64 },
    None,
    Spent { nodes: u64 },
    Refused { number: u64, line: u64, nodes: u64 },
}

/// As the second line that `keymove` prints.
impl fmt::Display for Answer {
    fn fmt(&self, f: &mut fmt::Formatter) -> fmt::Result {
        match self {
            Answer::Exact { mv, value, nodes } => write!(f, "exact {mv} {value} {nodes}"),
            Answer::None => write!(f, "none - - 0"),
            Answer::Spent { nodes } => write!(f, "spent - - {nodes}"),
            Answer::Refused { number, line, nodes } => {
                write!(f, "refused {number} {line} {nodes}")
            }
        }
    }
}

/// What a call is given beside the sheet and the memory.
#[derive(Clone, PartialEq, Debug)]
pub struct Settings {
    pub budget: u64,
    pub entries: u64,
    pub driver: u64,
    pub filters: u64,
    pub chain: Vec<u8>,
}

impl Settings {
    fn in_range(&self) -> bool {
        in_budget(self.budget)
            && (1..=1_024).contains(&self.entries)
            && self.driver <= 2
            && self.filters <= 3
            && self.chain.len() <= 8
            && self.chain.iter().all(|&p| p <= 4)
    }

    pub fn wants_goals(&self) -> bool {
        self.chain.iter().any(|&p| p == 3 || p == 4)
    }
}

fn in_budget(budget: u64) -> bool {
    budget <= 10_000_000
}

/// The call, with the dictionary that it ends with.
pub fn call(sheet: &[u8], s: &Settings, words: &mut [u64], tags: &mut [u8]) -> (Answer, Vec<f64>) {
    let refused = |number, line| (Answer::Refused { number, line, nodes: 0 }, vec![]);
    match sheet::read(sheet) {
        Err(f) => refused(f.number, f.line),
        Ok(rows) => call_net(&Net::new(rows), s, words, tags),
    }
}

/// Refusals 4 to 6, or the memo's shape.
fn shape(net: &Net, s: &Settings, words: &[u64], tags: &[u8]) -> Result<Shape, u64> {
    if !s.in_range() {
        return Err(4);
    }
    if s.wants_goals() && net.goals.is_empty() {
        return Err(5);
    }
    let shape = Shape::new(net, s.entries);
    if words.len() < shape.words() || tags.len() < shape.rows() {
        return Err(6);
    }
    Ok(shape)
}

/// The call on a net already read: it is the first choice of a session.
pub fn call_net(net: &Net, s: &Settings, words: &mut [u64], tags: &mut [u8]) -> (Answer, Vec<f64>) {
    let refused = |number| (Answer::Refused { number, line: 0, nodes: 0 }, vec![]);
    match shape(net, s, words, tags) {
        Err(number) => return refused(number),
        Ok(_) if !net.settled(&net.start) => return refused(7),
        Ok(_) => {}
    }
    let mut session = Session::open(net, s, words, tags).expect("what the call takes");
    let answer = session.choose(net, s.budget, &net.start, words, tags);
    if let Answer::Spent { nodes } = answer {
        assert!(nodes > s.budget, "no child has the root's value");
    }
    (answer, session.dict)
}
