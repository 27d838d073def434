//! Says where libabx.a is, which the command `tools/staticlib abx` makes. Without it all compiles, and only a program can't be linked.

use std::env;
use std::path::{Path, PathBuf};

fn main() {
    println!("cargo:rerun-if-env-changed=ABX_LIB_DIR");
    let given = env::var_os("ABX_LIB_DIR").filter(|dir| !dir.is_empty());
    let dir = given.map_or("../target/staticlib".into(), PathBuf::from);
    // The linker runs in another folder, so the path is made a full one.
    let dir = match env::var_os("CARGO_MANIFEST_DIR") {
        Some(here) => Path::new(&here).join(dir),
        None => dir,
    };
    let library = dir.join("libabx.a");
    if !library.is_file() {
        let dir = dir.display();
        println!("cargo:warning=no libabx.a in {dir}, so that no program can be linked: run `tools/staticlib abx` in the repository, or name its folder in ABX_LIB_DIR");
    }
    println!("cargo:rerun-if-changed={}", library.display());
    println!("cargo:rustc-link-search=native={}", dir.display());
    // For the test that compiles the C example.
    println!("cargo:rustc-env=ABX_LIBRARY={}", library.display());
}
