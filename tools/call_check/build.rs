//! Links the crate keymove_c, which `rt lib` proved and built. With feature `plain` there is
//! no proof and no archive: the crates' sources without their clauses become one Rust module, which
//! rustc compiles with its checks of overflows and bounds.

use std::path::{Path, PathBuf};

fn main() {
    let here = PathBuf::from(std::env::var_os("CARGO_MANIFEST_DIR").unwrap());
    let root = here.join("../..");
    if std::env::var_os("CARGO_FEATURE_PLAIN").is_some() {
        let to = PathBuf::from(std::env::var_os("OUT_DIR").unwrap()).join("plain.rs");
        std::fs::write(to, plain(&root)).unwrap();
        return;
    }
    let folder = root.join("crates/keymove_c/out");
    println!("cargo:rustc-link-search=native={}", folder.display());
    println!("cargo:rustc-link-lib=static=keymove_c");
    println!("cargo:rerun-if-changed={}", folder.join("libkeymove_c.a").display());
}

fn read(path: PathBuf) -> String {
    println!("cargo:rerun-if-changed={}", path.display());
    std::fs::read_to_string(&path).unwrap_or_else(|e| panic!("{}: {e}", path.display()))
}

/// keymove_c and all crates below it, a module each.
fn plain(root: &Path) -> String {
    let list = read(root.join("crates.txt"));
    let of =
        |line: &str| line.split(':').next().and_then(|l| l.split_whitespace().next()) == Some("keymove_c");
    let (_, below) =
        list.lines().find(|l| of(l)).and_then(|l| l.split_once(':')).expect("keymove_c in crates.txt");
    let names: Vec<&str> = below.split_whitespace().chain(["keymove_c"]).collect();
    let module = |name: &&str| {
        let text = whole(&root.join("crates").join(name).join("src"), "lib");
        format!("pub mod {name} {{\n{}}}\n", rust(&text, name, &names))
    };
    names.iter().map(module).collect()
}

/// The text of a file of a crate, with each module that it names in its place.
fn whole(folder: &Path, file: &str) -> String {
    let mut out = String::new();
    for line in read(folder.join(format!("{file}.rt"))).lines() {
        let named =
            line.strip_prefix("pub ").unwrap_or(line).strip_prefix("mod ").and_then(|l| l.strip_suffix(';'));
        match named {
            Some(name) => out += &format!("{} {{\n{}}}\n", line.trim_end_matches(';'), whole(folder, name)),
            None => out += &format!("{line}\n"),
        }
    }
    out
}

/// A function of the kit's library that Rust has under another name.
const NAN_READ: &str = "use std::num::f64_from_bits_with_nan;";
const NAN_READ_BY_RUST: &str = "fn f64_from_bits_with_nan(bits: u64) -> f64 { f64::from_bits(bits) }";

/// A crate's text as Rust: no `ghost` item or field, no `requires` or `ensures`, and no attribute or derive
/// that is the prover's; the crates are modules beside each other.
fn rust(text: &str, own: &str, names: &[&str]) -> String {
    let mut out = String::new();
    let mut lines = text.lines();
    while let Some(line) = lines.next() {
        let words = line.trim_start();
        if words.starts_with("ghost use ") {
            let mut last = line;
            while !last.ends_with(';') {
                last = lines.next().expect("the end of a `ghost use`");
            }
        } else if ["requires ", "ensures ", "ghost ", "pub ghost "].iter().any(|w| words.starts_with(w)) {
            let mut open = depth(line);
            while open != 0 {
                open += depth(lines.next().expect("the end of a clause"));
            }
        } else if !words.starts_with("#![tactic(")
            && !words.starts_with("#[tactic(")
            && !words.starts_with("#[cycle(")
        {
            let line = if words == NAN_READ { NAN_READ_BY_RUST } else { line };
            out += &paths(line, own, names).replace(", Drop)]", ")]").replace("#[derive(Drop)]", "");
            out += "\n";
        }
    }
    out
}

fn depth(line: &str) -> i32 {
    line.matches('{').count() as i32 - line.matches('}').count() as i32
}

/// The line with `crate::call::plain::` before each path that begins with a crate's name, or with `crate` for its own.
fn paths(line: &str, own: &str, names: &[&str]) -> String {
    let mut out = String::new();
    let mut rest = line;
    while let Some(at) = rest.find("::") {
        let start = rest[..at].rfind(|c: char| !c.is_alphanumeric() && c != '_').map_or(0, |i| i + 1);
        let inner = rest[..start].ends_with("::") || start == 0 && out.ends_with("::");
        out += &rest[..start];
        let word = &rest[start..at];
        if !inner && names.contains(&word) {
            out += "crate::call::plain::";
        }
        out += if inner || word != "crate" { word } else { "crate::call::plain::" };
        if !inner && word == "crate" {
            out += own;
        }
        out += "::";
        rest = &rest[at + 2..];
    }
    out + rest
}
