//! The example of main.c in Rust: the answer to a sheet, or to markings in a session of it.
use std::io::Read;

// include/keymove.h: a slice is a pointer and a length.
extern "C" {
    fn keymove_choose(
        sheet: *const u8,
        sheet_len: usize,
        budget: u64,
        entries: u64,
        driver: u64,
        filters: u64,
        chain: *const u8,
        chain_len: usize,
        words: *mut u64,
        words_len: usize,
        tags: *mut u8,
        tags_len: usize,
        out: *mut u64,
        out_len: usize,
    );
    fn keymove_session_words() -> u64;
    fn keymove_open(
        session: *mut u64,
        session_len: usize,
        sheet: *const u8,
        sheet_len: usize,
        entries: u64,
        driver: u64,
        filters: u64,
        chain: *const u8,
        chain_len: usize,
        words: *mut u64,
        words_len: usize,
        tags: *mut u8,
        tags_len: usize,
        out: *mut u64,
        out_len: usize,
    );
    fn keymove_pick(
        session: *mut u64,
        session_len: usize,
        budget: u64,
        m0: u64,
        m1: u64,
        m2: u64,
        m3: u64,
        words: *mut u64,
        words_len: usize,
        tags: *mut u8,
        tags_len: usize,
        out: *mut u64,
        out_len: usize,
    );
}

type Answer = [u64; 4];

const CHAIN: [u8; 3] = [0, 1, 2];

// Each call below is sound: each pointer is that of a slice with its length, and no two of them overlap.

/// The answer of a sheet with the settings of the program keymove.
fn choose(sheet: &[u8]) -> Answer {
    let (mut words, mut tags, mut out) = (vec![0; 7168], vec![0; 1024], [0; 4]);
    unsafe {
        keymove_choose(
            sheet.as_ptr(),
            sheet.len(),
            1000,
            1024,
            1,
            1,
            CHAIN.as_ptr(),
            CHAIN.len(),
            words.as_mut_ptr(),
            words.len(),
            tags.as_mut_ptr(),
            tags.len(),
            out.as_mut_ptr(),
            out.len(),
        );
    }
    out
}

/// All that a session keeps.
struct Session {
    own: Vec<u64>,
    words: Vec<u64>,
    tags: Vec<u8>,
}

impl Session {
    /// A session of the sheet, with the same settings but for the budget; else the refusal.
    fn open(sheet: &[u8]) -> Result<Session, Answer> {
        let own = vec![0; unsafe { keymove_session_words() } as usize];
        let mut s = Session {
            own,
            words: vec![0; 7168],
            tags: vec![0; 1024],
        };
        let mut out = [0; 4];
        unsafe {
            keymove_open(
                s.own.as_mut_ptr(),
                s.own.len(),
                sheet.as_ptr(),
                sheet.len(),
                1024,
                1,
                1,
                CHAIN.as_ptr(),
                CHAIN.len(),
                s.words.as_mut_ptr(),
                s.words.len(),
                s.tags.as_mut_ptr(),
                s.tags.len(),
                out.as_mut_ptr(),
                out.len(),
            );
        }
        if out[0] == 4 {
            Ok(s)
        } else {
            Err(out)
        }
    }

    /// The answer of a marking.
    fn pick(&mut self, [m0, m1, m2, m3]: [u64; 4]) -> Answer {
        let mut out = [0; 4];
        unsafe {
            keymove_pick(
                self.own.as_mut_ptr(),
                self.own.len(),
                1000,
                m0,
                m1,
                m2,
                m3,
                self.words.as_mut_ptr(),
                self.words.len(),
                self.tags.as_mut_ptr(),
                self.tags.len(),
                out.as_mut_ptr(),
                out.len(),
            );
        }
        out
    }
}

fn shown(answer: Answer) -> String {
    match answer {
        [0, key, value, nodes] => format!("exact {key} {} {nodes}", f64::from_bits(value)),
        [1, _, _, nodes] => format!("none - - {nodes}"),
        [2, _, _, nodes] => format!("spent - - {nodes}"),
        [_, number, line, nodes] => format!("refused {number} {line} {nodes}"),
    }
}

/// The marking of places with commas between them.
fn marking(text: &str) -> Option<[u64; 4]> {
    let mut m = [0; 4];
    for place in text.split(',') {
        let place: u8 = place.parse().ok()?;
        m[usize::from(place / 64)] |= 1 << (place % 64);
    }
    Some(m)
}

/// Chooses in a session, for each marking in turn: the answers, and the nodes that each takes in a session just opened.
fn play_on(sheet: &[u8], markings: &[[u64; 4]]) -> Result<Vec<(Answer, u64)>, Answer> {
    let mut session = Session::open(sheet)?;
    let mut line = |m: &[u64; 4]| Ok((session.pick(*m), Session::open(sheet)?.pick(*m)[3]));
    markings.iter().map(|m| line(m)).collect()
}

fn main() -> std::io::Result<()> {
    let mut arguments = std::env::args().skip(1);
    let mut sheet = Vec::new();
    match arguments.next() {
        Some(name) => sheet = std::fs::read(name)?,
        None => {
            std::io::stdin().read_to_end(&mut sheet)?;
        }
    }
    let Some(markings) = arguments
        .map(|text| marking(&text))
        .collect::<Option<Vec<_>>>()
    else {
        eprintln!("main [SHEETFILE [MARKING..]]");
        std::process::exit(2);
    };
    if markings.is_empty() {
        println!("answer move value nodes\n{}", shown(choose(&sheet)));
        return Ok(());
    }
    println!("answer move value nodes alone");
    match play_on(&sheet, &markings) {
        Ok(lines) => lines
            .iter()
            .for_each(|(answer, alone)| println!("{} {alone}", shown(*answer))),
        Err(refusal) => println!("{} -", shown(refusal)),
    }
    Ok(())
}
