//! That all compiles where there is no library: the build script says so, and does not fail.

use std::path::Path;
use std::process::Command;

#[test]
fn a_library_that_is_not_there_is_told() {
    let crate_folder = Path::new(env!("CARGO_MANIFEST_DIR"));
    let script = Path::new(env!("CARGO_TARGET_TMPDIR")).join("build_script");
    let compiled = Command::new("rustc")
        .args(["--edition", "2021", "-o"])
        .arg(&script)
        .arg(crate_folder.join("build.rs"))
        .status()
        .unwrap();
    assert!(compiled.success());
    let said = |dir: &Path| {
        let output = Command::new(&script)
            .env("ABX_LIB_DIR", dir)
            .output()
            .unwrap();
        assert!(output.status.success());
        String::from_utf8(output.stdout).unwrap()
    };
    let nowhere = said(&crate_folder.join("src"));
    assert!(nowhere.contains("cargo:warning=no libabx.a in"));
    assert!(nowhere.contains("ABX_LIB_DIR"));
    let there = said(Path::new(env!("ABX_LIBRARY")).parent().unwrap());
    assert!(!there.contains("cargo:warning"));
    assert!(there.contains("cargo:rustc-link-search=native="));
}
