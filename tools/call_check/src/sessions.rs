//! Random sessions: each opening and each choice is held to our own reading on memory with the same
//! contents: the answer, the count, every word and tag that is lent. A refusal 1 to 6 of an opening,
//! and 4, 6, 7 and 13 of a choice, leave the session's words and the memory bit for bit. The words go
//! on at other addresses, the memory is altered to any contents, and at the end the session's words
//! are: then a choice has to return and to write nothing outside of what is lent, no more.

use crate::call::WORD;
use crate::draft;
use crate::random::{self, Random};
use crate::reference::{memo::Shape, net::Marking, net::Net, session, Answer, Settings};
use crate::scenes::{self, Met};
use crate::session::{size, whole, Given, Opening, Words};

/// The words of the net in a session, which stand first.
const NET_WORDS: usize = 75_264;

/// What a run must meet beside each answer and refusal.
const ELSE: [&str; 15] = [
    "opened",
    "exact with count 0",
    "no child",
    "first generation again",
    "a settling at its limit",
    "opened with too few words",
    "chosen with too few words",
    "opened with few for out",
    "chosen with few for out",
    "more for the answer",
    "memory longer than needed",
    "words at other addresses",
    "memory altered",
    "session altered behind",
    "session altered before",
];

/// What a run has seen of sessions.
#[derive(Default)]
pub struct Sessions {
    met: Met,
    opens: usize,
    picks: usize,
    differ: usize,
    /// Those on 4 MiB of stack.
    small_stack: usize,
}

/// A session of ours, its memory, and the session's words of the entries'.
type Opened = (session::Session, Vec<u64>, Vec<u8>, Words);

/// A session of ours, with its memory, beside the words of the entries', with theirs.
struct Beside<'a> {
    net: &'a Net,
    shape: Shape,
    ours: session::Session,
    words: Vec<u64>,
    tags: Vec<u8>,
    theirs: Words,
}

/// What a word is altered to: anything, a float, one bit, another word or that with one bit changed.
fn any_word(r: &mut Random, words: &[u64]) -> u64 {
    match r.below(6) {
        0 => scenes::word(r),
        1 => r.of(&[f64::NAN, f64::INFINITY, -f64::INFINITY, -0.0, 0.5, -1.0, 1.0, 1e300]).to_bits(),
        2 => 1 << r.below(64),
        3 => r.of(&[0, u64::MAX, 1, 255, 256]),
        _ => r.of(words) ^ (1 << r.below(64)) * r.below(2) as u64,
    }
}

/// Alters words of a session behind the net: mostly where something stands, or beside it, as lengths
/// and settings do.
fn tail(r: &mut Random, session: &mut [u64]) {
    let said = |i: &usize| session[i - 1..(i + 2).min(size())].iter().any(|&x| x != 0);
    let said: Vec<usize> = (NET_WORDS..size()).filter(said).collect();
    for _ in 0..1 + r.below(3) {
        let any = said.is_empty() || r.once_in(4);
        let i = if any { NET_WORDS + r.below(size() - NET_WORDS) } else { r.of(&said) };
        session[i] = any_word(r, &[2, 5, 8, 9, 127, 128, 256, 257, 1_023, 1_025, 1 << 32]);
    }
}

/// Alters words of a session's net, to anything.
fn any_net(r: &mut Random, session: &mut [u64]) {
    for _ in 0..1 + r.below(40) {
        let i = if r.once_in(2) { r.below(NET_WORDS) } else { r.below(300) };
        session[i] = any_word(r, &session[..NET_WORDS]);
    }
}

impl Sessions {
    /// Opens a sheet by both, with these words and tags lent, and so much given; the session, where
    /// it is opened.
    fn open(
        &mut self,
        r: &mut Random,
        sheet: &[u8],
        s: &Settings,
        lent: (usize, usize),
    ) -> Result<Option<Opened>, String> {
        self.opens += 1;
        let before = (scenes::words(r, lent.0), scenes::bytes(r, lent.1));
        let ((mut w, mut t), (mut rw, mut rt)) = (before.clone(), before.clone());
        let mut theirs = Words::new();
        if r.once_in(6) {
            self.open_less(r, &mut theirs, sheet, s, &before)?;
        }
        let want = session::open(sheet, s, &mut rw, &mut rt);
        let got = theirs.open(whole(), sheet, s, &mut w, &mut t)?;
        if w != rw || t != rt {
            return Err("opening: the memory left differs".into());
        }
        match (got, want) {
            (Opening::Opened, Ok((_, ours))) => {
                self.met.add("opened");
                Ok(Some((ours, w, t, theirs)))
            }
            (Opening::Refused(got), Err(want)) if got == want => {
                if let Answer::Refused { number, .. } = got {
                    self.met.refused_opening(number);
                }
                if theirs.is(&Words::new()) {
                    Ok(None)
                } else {
                    Err(format!("{got}, but the session was written"))
                }
            }
            (Opening::Opened, Err(want)) => Err(format!("opened, our own reading has {want}")),
            (Opening::Refused(got), _) => Err(format!("opening: {got}, our own reading has not")),
        }
    }

    /// Opening with too few words for the session, or for the answer: all is as it was.
    fn open_less(
        &mut self,
        r: &mut Random,
        theirs: &mut Words,
        sheet: &[u8],
        s: &Settings,
        lent: &(Vec<u64>, Vec<u8>),
    ) -> Result<(), String> {
        let (mut w, mut t) = lent.clone();
        let wrong = if r.once_in(2) {
            let given = Given { out: r.below(4), ..whole() };
            self.met.add("opened with few for out");
            theirs.open_raw(given, sheet, s, &mut w, &mut t)?.iter().any(|&x| x != WORD)
        } else {
            let given = Given { session: short(r), ..whole() };
            self.met.add("opened with too few words");
            let six = Answer::Refused { number: 6, line: 0, nodes: 0 };
            let want = match session::open(sheet, s, &mut w.clone(), &mut t.clone()) {
                Err(a @ Answer::Refused { number: 1..=5, .. }) => a,
                _ => six,
            };
            !matches!(theirs.open(given, sheet, s, &mut w, &mut t)?, Opening::Refused(got) if got == want)
        };
        if wrong || (w, t) != *lent || !theirs.is(&Words::new()) {
            return Err("an opening with too few words did something else".into());
        }
        Ok(())
    }

    /// A choice with too few words for the session, or for the answer: all is as it was.
    fn pick_less(&mut self, r: &mut Random, b: &mut Beside, budget: u64, m: &Marking) -> Result<(), String> {
        let (mut w, mut t, before) = (b.words.clone(), b.tags.clone(), b.theirs.copy());
        let wrong = if r.once_in(2) {
            self.met.add("chosen with few for out");
            let given = Given { out: r.below(4), ..whole() };
            b.theirs.pick_raw(given, budget, m, &mut w, &mut t)?.iter().any(|&x| x != WORD)
        } else {
            self.met.add("chosen with too few words");
            let given = Given { session: short(r), ..whole() };
            let number = if budget > 10_000_000 { 4 } else { 6 };
            b.theirs.pick(given, budget, m, &mut w, &mut t)? != Answer::Refused { number, line: 0, nodes: 0 }
        };
        if wrong || w != b.words || t != b.tags || !b.theirs.is(&before) {
            return Err("a choice with too few words did something else".into());
        }
        Ok(())
    }
}

/// Too few words for a session.
fn short(r: &mut Random) -> usize {
    r.of(&[0, 1, size() - 1, NET_WORDS, NET_WORDS - 1, r.0 as usize % size()])
}

/// How much is lent to a choice: mostly all there is.
fn lent(r: &mut Random, b: &Beside) -> (usize, usize) {
    let (w, t) = (b.shape.words(), b.shape.rows());
    let all = (b.words.len(), b.tags.len());
    match r.below(40) {
        0 => (r.below(w), all.1),
        1 => (all.0, r.below(t)),
        2 => (w - 1, t),
        3 => (w, t - 1),
        4..=9 => (w, t),
        _ => all,
    }
}

impl Sessions {
    /// A choice by both, for a marking that play has to do with, within a budget about N.
    fn pick(&mut self, r: &mut Random, b: &mut Beside, at: &mut Marking) -> Result<(), String> {
        let m = scenes::marking(r, b.net, at);
        let budget = scenes::budget(r, &scenes::foreseen(b.net, &b.ours, &m, &b.words, &b.tags));
        if r.once_in(12) {
            self.pick_less(r, b, budget, &m)?;
        }
        if r.once_in(4) {
            self.met.add("words at other addresses");
            b.theirs.move_away();
        }
        let lent = lent(r, b);
        self.pick_on(r, b, budget, &m, lent)
    }

    /// A choice by both, with these words and tags lent.
    fn pick_on(
        &mut self,
        r: &mut Random,
        b: &mut Beside,
        budget: u64,
        m: &Marking,
        (w, t): (usize, usize),
    ) -> Result<(), String> {
        self.picks += 1;
        let (before, generation) = (b.theirs.copy(), b.ours.generation);
        let (mut words, mut tags) = (b.words.clone(), b.tags.clone());
        let (want, at_limit) =
            b.net.noting_limit(|| b.ours.choose(b.net, budget, m, &mut b.words[..w], &mut b.tags[..t]));
        let given = Given { out: 4 + r.below(3), ..whole() };
        let mut choose = || b.theirs.pick(given, budget, m, &mut words[..w], &mut tags[..t]);
        let small = matches!(want, Answer::Refused { number: 12, .. }) || r.once_in(20);
        let got = if small { crate::on_small_stack(choose) } else { choose() }?;
        self.small_stack += small as usize;
        let what = format!("pick {budget} {m:x?} on {w} words and {t} tags: {got}");
        if got != want {
            return Err(format!("{what}, our own reading has {want}"));
        }
        if words != b.words || tags != b.tags {
            return Err(format!("{what}: the memory left differs"));
        }
        if matches!(got, Answer::Refused { number: 4 | 6 | 7 | 13, .. }) && !b.theirs.is(&before) {
            return Err(format!("{what}, but the session was written"));
        }
        self.met.answer(&got, budget);
        if given.out > 4 {
            self.met.add("more for the answer");
        }
        if at_limit {
            self.met.add("a settling at its limit");
        }
        if generation == 127 && !matches!(got, Answer::Refused { .. }) {
            self.met.add("first generation again");
        }
        Ok(())
    }

    /// Alters the lent memory, to anything.
    fn alter(&mut self, r: &mut Random, b: &mut Beside) {
        self.met.add("memory altered");
        let (rows, n) = (b.shape.rows(), b.shape.row_words());
        let taken: Vec<usize> = (0..rows).filter(|&i| b.tags[i] != 0).collect();
        for _ in 0..1 + r.below(8) {
            let row = if taken.is_empty() || r.once_in(8) { r.below(rows) } else { r.of(&taken) };
            // Mostly what follows a row's key.
            let word = if r.once_in(4) { r.below(n) } else { n - 1 - r.below(n - b.shape.key_words) };
            b.words[row * n + word] = any_word(r, &b.words);
            if r.once_in(6) {
                let other = b.tags[r.below(rows)];
                b.tags[row] = r.of(&[other, 0, 1, 255, r.0 as u8]);
            }
        }
    }

    /// Choices in sessions whose own words were altered, each from the session as it is.
    fn wild(&mut self, r: &mut Random, b: &mut Beside, at: &mut Marking) -> Result<(), String> {
        for _ in 0..8 {
            let mut altered = b.theirs.copy();
            if r.once_in(3) {
                self.met.add("session altered before");
                any_net(r, altered.inner());
            } else {
                self.met.add("session altered behind");
                tail(r, altered.inner());
            }
            let m = scenes::marking(r, b.net, at);
            let budget = r.below(60) as u64;
            altered.pick_raw(whole(), budget, &m, &mut b.words.clone(), &mut b.tags.clone())?;
        }
        Ok(())
    }

    /// A session on a sheet that is to be opened, with so many more words and tags than needed.
    fn opened<'a>(
        &mut self,
        r: &mut Random,
        text: &str,
        net: &'a Net,
        s: &Settings,
        more: (usize, usize),
    ) -> Result<Beside<'a>, String> {
        let shape = Shape::new(net, s.entries);
        let lent = (shape.words() + more.0, shape.rows() + more.1);
        match self.open(r, text.as_bytes(), s, lent)? {
            Some((ours, words, tags, theirs)) => Ok(Beside { net, shape, ours, words, tags, theirs }),
            None => Err(format!("not opened: {s:?}")),
        }
    }

    fn session(&mut self, r: &mut Random, text: &str, net: &Net) -> Result<(), String> {
        let mut s = random::settings(r);
        s.budget = r.of(&[0, u64::MAX]);
        if net.goals.is_empty() {
            s.chain.retain(|&p| p < 3);
        }
        let more = if r.once_in(3) { (r.below(300), r.below(40)) } else { (0, 0) };
        if more != (0, 0) {
            self.met.add("memory longer than needed");
        }
        let mut b = self.opened(r, text, net, &s, more)?;
        let (often, mut at) = (r.once_in(3), net.start);
        let n = if r.once_in(60) { 200 } else { 1 + r.below(12) };
        for _ in 0..n {
            if often && r.once_in(2) {
                self.alter(r, &mut b);
            }
            self.pick(r, &mut b, &mut at).map_err(|why| format!("{s:?}: {why}"))?;
        }
        if r.once_in(4) {
            self.wild(r, &mut b, &mut at)
        } else {
            Ok(())
        }
    }

    /// A session of over 127 choices, none of them refused.
    fn long(&mut self, r: &mut Random) -> Result<(), String> {
        let text = draft::named(&["nim", "1", "2"]).unwrap().text();
        let net = Net::new(crate::sheet::read(text.as_bytes()).unwrap());
        let s = Settings { chain: vec![2], ..random::settings(r) };
        let mut b = self.opened(r, &text, &net, &s, (0, 0))?;
        let lent = (b.words.len(), b.tags.len());
        for _ in 0..130 {
            let budget = r.below(40) as u64;
            self.pick_on(r, &mut b, budget, &net.start, lent)?;
        }
        Ok(())
    }

    /// Openings of damaged sheets and settings.
    fn spoiled(&mut self, r: &mut Random, text: &str) -> Result<(), String> {
        let mut s = random::settings(r);
        let sheet = if r.once_in(3) { text.as_bytes().to_vec() } else { random::spoiled(r, text) };
        let mut lent = (7_168, 1_024);
        match r.below(8) {
            0 => s.entries = r.of(&[0, 1_025, u64::MAX]),
            1 => s.driver = r.of(&[3, 256, u64::MAX]),
            2 => s.filters = r.of(&[4, 256, u64::MAX]),
            3 => s.chain = r.of(&[vec![5], vec![255], vec![0; 9], vec![3], vec![4]]),
            4 => lent.0 = r.below(300),
            5 => lent.1 = r.below(12),
            _ => {}
        }
        self.open(r, &sheet, &s, lent).map(|_| ()).map_err(|why| format!("{s:?}: {why}"))
    }

    /// Sessions on a net.
    pub fn on(&mut self, r: &mut Random, text: &str, net: &Net) {
        let mut got = self.session(r, text, net).and_then(|()| self.spoiled(r, text));
        if r.once_in(60) {
            got = got.and_then(|()| self.long(r));
        }
        if let Err(why) = got {
            self.differ += 1;
            if self.differ <= 3 {
                println!("session: {why}\n{text}");
            }
        }
    }

    /// Writes what was seen; false on a difference, or if something was never met.
    pub fn report(&self) -> bool {
        let (lines, met) = self.met.table(&ELSE);
        print!("sessions\n{lines}");
        println!(
            "{} openings and {} choices, {} of them on 4 MiB of stack, {} sessions differ",
            self.opens, self.picks, self.small_stack, self.differ
        );
        met && self.differ == 0
    }
}
