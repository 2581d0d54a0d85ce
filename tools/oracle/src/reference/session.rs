//! A session (02, L1): a sheet is opened once, and each choice for a marking
//! of its net goes on with what the choices before it left: the lent memory,
//! the dictionary, the history.

use super::memo::{Memo, Shape};
use super::net::{tokens, Marking, Net};
use super::search::Search;
use super::{in_budget, shape, sheet, Answer, Settings, Stop};

/// The last generation; the first follows it.
const GENERATIONS: u64 = 127;
/// Places that a marking has bits for.
const PLACES: usize = 256;

/// What a session carries beside the net and the lent memory.
#[derive(Clone, PartialEq)]
pub struct Session {
    /// Those of the opening; their budget is not used.
    settings: Settings,
    shape: Shape,
    pub dict: Vec<f64>,
    pub history: [u32; 256],
    /// That of the last choice.
    pub generation: u64,
}

/// Opens a sheet: its net and the session, or refusals 1 to 6.
pub fn open(
    sheet: &[u8],
    s: &Settings,
    words: &mut [u64],
    tags: &mut [u8],
) -> Result<(Net, Session), Answer> {
    let refused = |number, line| Answer::Refused { number, line, nodes: 0 };
    let net = Net::new(sheet::read(sheet).map_err(|f| refused(f.number, f.line))?);
    let session = Session::open(&net, s, words, tags).map_err(|number| refused(number, 0))?;
    Ok((net, session))
}

impl Session {
    /// Opens a net already read. The budget of the settings plays no part.
    pub fn open(net: &Net, s: &Settings, words: &mut [u64], tags: &mut [u8]) -> Result<Self, u64> {
        let settings = Settings { budget: 0, ..s.clone() };
        let shape = shape(net, &settings, words, tags)?;
        let mut session = Session { settings, shape, dict: vec![], history: [0; 256], generation: 0 };
        session.renew(words, tags);
        Ok(session)
    }

    /// As newly opened, the memo's part zero.
    fn renew(&mut self, words: &mut [u64], tags: &mut [u8]) {
        words[..self.shape.words()].fill(0);
        tags[..self.shape.rows()].fill(0);
        self.dict.clear();
        self.history = [0; 256];
        self.generation = 1;
    }

    /// A choice for a marking of the net within a budget.
    pub fn choose(
        &mut self,
        net: &Net,
        budget: u64,
        m: &Marking,
        words: &mut [u64],
        tags: &mut [u8],
    ) -> Answer {
        let refused = |number, nodes| Answer::Refused { number, line: 0, nodes };
        if !in_budget(budget) {
            return refused(4, 0);
        }
        if words.len() < self.shape.words() || tags.len() < self.shape.rows() {
            return refused(6, 0);
        }
        if (net.places..PLACES).any(|p| tokens(m, p) == 1) {
            return refused(13, 0);
        }
        if !net.settled(m) {
            return refused(7, 0);
        }
        self.generation = self.generation % GENERATIONS + 1;
        let (got, nodes) = self.searched(net, budget, m, words, tags);
        match got {
            Ok(Some((mv, value))) => Answer::Exact { mv, value, nodes },
            Ok(None) => Answer::None,
            Err(Stop::Spent | Stop::NoChild) => Answer::Spent { nodes },
            Err(Stop::Refused(number)) => {
                self.renew(words, tags);
                refused(number, nodes)
            }
        }
    }

    /// Chooses from what is carried, which goes on; with the count.
    fn searched(
        &mut self,
        net: &Net,
        budget: u64,
        m: &Marking,
        words: &mut [u64],
        tags: &mut [u8],
    ) -> (Result<Option<(usize, f64)>, Stop>, u64) {
        let dict = std::mem::take(&mut self.dict);
        let mut search = Search {
            net,
            memo: Memo::new(net, self.shape, words, tags, dict, self.generation),
            budget,
            driver: self.settings.driver,
            must_win: self.settings.filters & 1 != 0,
            non_losing: self.settings.filters & 2 != 0,
            chain: &self.settings.chain,
            count: 0,
            history: self.history,
        };
        let got = search.choose(m);
        let nodes = search.count;
        self.history = search.history;
        self.dict = search.memo.dict;
        (got, nodes)
    }
}
