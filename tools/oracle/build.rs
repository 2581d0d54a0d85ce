//! Checks the seven files of pflow-rs and hands them to the compiler.
//!
//! The variable PFLOW_SRC names the folder that holds
//! crates/pflow-metamodel/src. A file whose SHA-256 is not the one below is
//! refused. Each is copied to OUT_DIR; a copy's text is the file's, and for
//! three of them one line follows that declares a child module of ours,
//! since only a child may read a module's private fields.

#[path = "src/sha256.rs"]
mod sha256;

use std::{env, fs, path::Path};

const FILES: [(&str, &str); 7] = [
    ("bits", "12eafec536993c2e2fad3386848f792abed45f3d5d309a791b4339fc5939c1fa"),
    ("filter", "2ae7b4ede158e4161657982f6fadfd6390cb3d65dd8a0d7c1aadc9c31e728cbf"),
    ("game", "7185c2c553f449fe8cf03bcb2529415ec40dcbb4b31b897cf4db222a1853a25d"),
    ("indexed", "eb9ff5ba532927de678d65adda299ef670f4d678aa7bb287183ba3fbbcb1caf0"),
    ("memo", "929b7578f6ac7ff6ad3f1f1099ed09f540fa8334808f78773f7e47301543d00a"),
    ("order", "203f420d9f9b874fdb033a8ec2cf438b42c93bb59a499c936917750ad179a780"),
    ("root", "eb9a650b241d3cae92b15b5a556fa54eb33c270329fb5ef06caee57e6a75c3a8"),
];

/// Our child modules, by the file that they are appended to.
const CHILDREN: [(&str, &str); 3] =
    [("game", "game_left"), ("indexed", "indexed_fill"), ("memo", "memo_left")];

fn main() {
    println!("cargo:rerun-if-env-changed=PFLOW_SRC");
    let source = env::var("PFLOW_SRC").unwrap_or_else(|_| refuse("PFLOW_SRC is not set"));
    let folder = Path::new(&source).join("crates/pflow-metamodel/src");
    let out = env::var("OUT_DIR").unwrap();
    let ours = Path::new(&env::var("CARGO_MANIFEST_DIR").unwrap()).join("src/pflow");
    let mut modules = String::new();
    for (name, sum) in FILES {
        let path = folder.join(format!("{name}.rs"));
        println!("cargo:rerun-if-changed={}", path.display());
        let Ok(mut text) = fs::read(&path) else { refuse(&format!("cannot read {}", path.display())) };
        if sha256::hex(&text) != sum {
            refuse(&format!("{} is not the file of commit 4b512edf53", path.display()));
        }
        if let Some((_, child)) = CHILDREN.iter().find(|x| x.0 == name) {
            let child = ours.join(format!("{child}.rs"));
            text.extend(format!("\n#[path = {child:?}]\npub mod ours;\n").bytes());
        }
        let copy = Path::new(&out).join(format!("{name}.rs"));
        fs::write(&copy, text).unwrap();
        modules += &format!("#[path = {copy:?}]\npub mod {name};\n");
    }
    fs::write(Path::new(&out).join("modules.rs"), modules).unwrap();
}

fn refuse(why: &str) -> ! {
    eprintln!("oracle: {why}");
    std::process::exit(1)
}
