//! Links the port's C entry into compare-c: C_ENTRY names the static library.

fn main() {
    println!("cargo:rerun-if-changed=build.rs");
    println!("cargo:rerun-if-env-changed=C_ENTRY");
    if std::env::var_os("CARGO_FEATURE_C_ENTRY").is_some() {
        let library = std::env::var("C_ENTRY").expect("C_ENTRY names the static library");
        println!("cargo:rerun-if-changed={library}");
        println!("cargo:rustc-link-arg-bin=compare-c={library}");
    }
}
