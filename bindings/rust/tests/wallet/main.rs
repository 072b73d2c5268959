//! A program that was written for the Rust crate bech32 0.12.0, run over this package under that crate's
//! name. What it should print stands in the file `printed`, as it printed it over the other crate.
//!
//! With the feature `beside` it is run over the other crate too, in the checkout that the environment
//! variable BECH32_CRATE names.

use std::fs;
use std::path::Path;
use std::process::Command;

const PROGRAM: &str = include_str!("program.rs");

const PRINTED: &str = include_str!("printed");

// What the program prints over the package that these words of a manifest name.
fn printed(name: &str, dependency: &str) -> String {
    let folder = Path::new(env!("CARGO_TARGET_TMPDIR")).join(name);
    fs::create_dir_all(folder.join("src")).unwrap();
    fs::write(folder.join("src/main.rs"), PROGRAM).unwrap();
    let manifest = format!(
        "[package]\nname = \"wallet\"\nversion = \"0.0.0\"\nedition = \"2021\"\n\n\
         [workspace]\n\n[dependencies]\n\
         bech32 = {{ {dependency}, default-features = false, features = [\"std\"] }}\n"
    );
    fs::write(folder.join("Cargo.toml"), manifest).unwrap();
    let run = Command::new(env!("CARGO"))
        .args(["run", "--offline", "--quiet", "--target-dir"])
        .arg(folder.join("target"))
        .current_dir(&folder)
        .output()
        .unwrap();
    let (said, faults) = (
        String::from_utf8(run.stdout),
        String::from_utf8_lossy(&run.stderr),
    );
    assert!(run.status.success(), "{faults}");
    said.unwrap()
}

#[test]
fn prints_the_same_over_this_package() {
    let package = env!("CARGO_MANIFEST_DIR");
    let ours = printed(
        "ours",
        &format!("package = \"bech32_proved\", path = {package:?}"),
    );
    assert_eq!(ours, PRINTED);
}

#[cfg(feature = "beside")]
#[test]
fn prints_this_over_the_other_crate() {
    let folder = std::env::var("BECH32_CRATE").expect("BECH32_CRATE names the other crate");
    assert_eq!(printed("theirs", &format!("path = {folder:?}")), PRINTED);
}
