//! Links the port's side: BENCH_ENTRY names the static library that `run` builds. The live calls' is linked by their Rust crate.

fn main() {
    println!("cargo:rerun-if-changed=build.rs");
    println!("cargo:rerun-if-env-changed=BENCH_ENTRY");
    let library = std::env::var("BENCH_ENTRY")
        .unwrap_or_else(|_| panic!("BENCH_ENTRY names a static library"));
    println!("cargo:rerun-if-changed={library}");
    println!("cargo:rustc-link-arg={library}");
}
