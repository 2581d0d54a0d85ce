//! Links the crate walk_bench, which `run` has rt lib prove and build in a scratch repository. WALK_BENCH names the folder of its archive.

fn main() {
    let folder = std::env::var("WALK_BENCH").expect("WALK_BENCH");
    println!("cargo:rustc-link-search=native={folder}");
    println!("cargo:rustc-link-lib=static=walk_bench");
    println!("cargo:rerun-if-changed={folder}/libwalk_bench.a");
    println!("cargo:rerun-if-env-changed=WALK_BENCH");
}
