//! Links the live engine's C library: CHAKAQEL_LIBRARY names it.

use std::path::{Path, PathBuf};

/// The variable that names the static library.
const VARIABLE: &str = "CHAKAQEL_LIBRARY";

fn main() {
    println!("cargo::rerun-if-changed=build.rs");
    println!("cargo::rerun-if-env-changed={VARIABLE}");
    match library() {
        Ok(library) => link(&library),
        Err(words) => println!("cargo::error={words}"),
    }
}

/// The library's whole path, or what to do about it.
fn library() -> Result<PathBuf, String> {
    let how = "build libchakaqel.a with `rt lib` in the repository's crates/chakaqel, \
               then set it to the whole path of crates/chakaqel/out/libchakaqel.a";
    let Some(name) = std::env::var_os(VARIABLE) else {
        return Err(format!("{VARIABLE} is not set: {how}"));
    };
    let path = PathBuf::from(name);
    // A build script runs in its crate's folder, not where cargo was started.
    if !path.is_absolute() {
        let path = path.display();
        return Err(format!("{VARIABLE} is {path}, not a whole path: {how}"));
    }
    if !path.is_file() {
        let path = path.display();
        return Err(format!("{VARIABLE} is {path}, which is no file: {how}"));
    }
    Ok(path)
}

/// Links the file into the crate, whatever its name is.
fn link(library: &Path) {
    let folder = library.parent().unwrap_or(Path::new("/"));
    let name = Path::new(library.file_name().unwrap_or_default());
    println!("cargo::rerun-if-changed={}", library.display());
    println!("cargo::rustc-link-search=native={}", folder.display());
    println!("cargo::rustc-link-lib=static:+verbatim={}", name.display());
}
