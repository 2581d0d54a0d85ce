//! The oracle: the Rust's answer for a sheet, and our own reading's.

mod cases;
mod compare;
mod draft;
mod list;
mod random;
mod reference;
mod rust;
mod scenes;
mod sessions;
mod walk;

use reference::{net::Net, Answer, Settings};
use std::io::Read;

const USAGE: &str = "\
oracle run [OPTIONS] [FILE]        the Rust's answer for a sheet
oracle reference [OPTIONS] [FILE]  our own reading's
oracle game NAME [NUMBERS]         a game's sheet
oracle net SEED                    a random sheet
oracle compare SEED NETS           our reading against the Rust on random sheets
oracle sessions SEED CHOICES       our reading against the Rust, choice after choice
oracle make-list BY-HAND           the fixed list
oracle check-list FILE [reference|rust]  replays it by our reading, the Rust, or both
oracle read-list FILE              what our own reader gives of each sheet of a list
oracle make-walks BY-HAND          the list of walks on nets
oracle walk-list FILE              what the Rust gives on it
oracle cases FILE                  replays a file of cases for 02's requests by our own reading
oracle renew-cases FILE            the file with what our own reading gives now
oracle memo-list                   what the Rust's memo gives on the runs of memo_check
OPTIONS: budget=1000 entries=1024 driver=1 filters=1 chain=012 memo";

fn main() {
    // The Rust recurses without a limit on depth.
    let run = std::thread::Builder::new().stack_size(1 << 30).spawn(start);
    std::process::exit(run.unwrap().join().unwrap_or(2));
}

fn start() -> i32 {
    let args: Vec<String> = std::env::args().skip(1).collect();
    let args: Vec<&str> = args.iter().map(String::as_str).collect();
    match &args[..] {
        ["run", rest @ ..] => answer(rest, true),
        ["reference", rest @ ..] => answer(rest, false),
        ["net", seed] => match seed.parse() {
            Ok(seed) => {
                print!("{}", random::sheet(&mut random::Random(seed)).text());
                0
            }
            Err(_) => usage(),
        },
        ["compare", seed, nets] => match (seed.parse(), nets.parse()) {
            (Ok(seed), Ok(nets)) => !compare::run(seed, nets) as i32,
            _ => usage(),
        },
        ["sessions", seed, choices] => match (seed.parse(), choices.parse()) {
            (Ok(seed), Ok(choices)) => !sessions::run(seed, choices) as i32,
            _ => usage(),
        },
        ["make-list", file] => printed(file, list::make),
        ["read-list", file] => printed(file, list::read),
        ["make-walks", file] => printed(file, walk::make),
        ["walk-list", file] => printed(file, walk::replay),
        ["renew-cases", file] => printed(file, cases::renew),
        ["memo-list"] => {
            print!("{}", pflow::memo::ours::runs::all());
            0
        }
        ["cases", file] => match std::fs::read_to_string(file) {
            Ok(text) => !cases::check(&text) as i32,
            Err(_) => usage(),
        },
        ["check-list", file, by @ ..] => match std::fs::read(file) {
            Ok(text) => {
                let text = String::from_utf8_lossy(&text);
                !list::check(&text, by != ["rust"], by != ["reference"]) as i32
            }
            Err(_) => usage(),
        },
        ["game", rest @ ..] if !rest.is_empty() => match draft::named(rest) {
            Some(d) => {
                print!("{}", d.text());
                0
            }
            None => usage(),
        },
        _ => usage(),
    }
}

/// Prints what is made of a file.
fn printed(file: &str, make: impl Fn(&str) -> Option<String>) -> i32 {
    let Ok(text) = std::fs::read_to_string(file) else { return usage() };
    match make(&text) {
        Some(made) => {
            print!("{made}");
            0
        }
        None => 1,
    }
}

fn usage() -> i32 {
    eprintln!("{USAGE}");
    2
}

/// Prints the two lines of `keymove`, and with `memo` the memo's words,
/// tags and dictionary.
fn answer(args: &[&str], by_rust: bool) -> i32 {
    let mut s = Settings { budget: 1_000, entries: 1_024, driver: 1, filters: 1, chain: vec![0, 1, 2] };
    let (mut file, mut memo) = (None, false);
    for arg in args {
        match arg.split_once('=') {
            Some(("chain", digits)) => s.chain = digits.bytes().map(|b| b.wrapping_sub(b'0')).collect(),
            Some((name, number)) => {
                let Ok(n) = number.parse() else { return usage() };
                match name {
                    "budget" => s.budget = n,
                    "entries" => s.entries = n,
                    "driver" => s.driver = n,
                    "filters" => s.filters = n,
                    _ => return usage(),
                }
            }
            None if *arg == "memo" => memo = true,
            None => file = Some(*arg),
        }
    }
    let mut sheet = vec![];
    let read = match file {
        Some(name) => std::fs::read(name).map(|text| sheet = text),
        None => std::io::stdin().read_to_end(&mut sheet).map(|_| ()),
    };
    if let Err(e) = read {
        eprintln!("{e}");
        return 2;
    }
    let (mut words, mut tags) = (vec![0; 7_168], vec![0; 1_024]);
    let (got, dict) = reference::call(&sheet, &s, &mut words, &mut tags);
    println!("answer move value nodes");
    if !by_rust {
        println!("{got}");
        if memo {
            show_memo(&words, &tags, dict.iter().copied());
        }
        return 0;
    }
    // The Rust has no reader and takes no setting outside the ranges.
    if let Answer::Refused { number: 1..=4, .. } = got {
        println!("{got}");
        return 0;
    }
    let net = Net::new(reference::sheet::read(&sheet).unwrap());
    let o = rust::Rust::new(&net).choose(&s);
    println!("{}", rust::show(&o, s.budget));
    if memo {
        show_memo(&o.words, &o.tags, o.dict.iter().map(|&x| f64::from_bits(x)));
    }
    0
}

/// The words and tags that are not zero, by index.
fn show_memo(words: &[u64], tags: &[u8], dict: impl Iterator<Item = f64>) {
    for (i, w) in words.iter().enumerate().filter(|x| *x.1 != 0) {
        println!("word {i} {w:016x}");
    }
    for (i, t) in tags.iter().enumerate().filter(|x| *x.1 != 0) {
        println!("tag {i} {t:02x}");
    }
    println!("dictionary {:?}", dict.collect::<Vec<_>>());
}
