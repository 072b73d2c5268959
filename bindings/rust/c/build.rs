//! Gives cargo the libraries `bech32_c` and `codex32_c`.
//!
//! For Linux on x86-64 the first is `libbech32_c.a`, in the folder that BECH32_C_FOLDER names, else in the folder `lib` of
//! this package, else where the toolchain builds it in the repository. For every other target, where none of these is
//! there, and where BECH32_C_SOURCE names one, it is compiled of `bech32.c` by a C compiler: the file that the variable
//! names, or that of the folder `c` of this package, or that of `dist` in the repository. The compiler is the one that
//! CC_TARGET, TARGET_CC or CC names, else `cc`, or `cl` for MSVC. The tests read the header, `bech32.h`, in the folder
//! `include`. The second has the same names with CODEX32 and codex32 in them.

use std::env;
use std::fs;
use std::path::{Path, PathBuf};
use std::process::{exit, Command};

fn stop(lines: &[&str]) -> ! {
    for line in lines {
        eprintln!("{line}");
    }
    exit(1)
}

fn named(name: &str) -> Option<String> {
    println!("cargo:rerun-if-env-changed={name}");
    env::var(name).ok().filter(|value| !value.is_empty())
}

// The first of two files, or the second.
fn either(top: &Path, ours: &str, built: &str) -> PathBuf {
    let packaged = top.join(ours);
    if packaged.exists() {
        packaged
    } else {
        top.join(built)
    }
}

// The C compiler for a target.
fn compiler(target: &str) -> String {
    named(&format!("CC_{target}"))
        .or_else(|| named(&format!("CC_{}", target.replace(['-', '.'], "_"))))
        .or_else(|| named("TARGET_CC"))
        .or_else(|| named("CC"))
        .unwrap_or_else(|| String::from(if target.ends_with("msvc") { "cl" } else { "cc" }))
}

// An archive of one object. rustc makes the table of its symbols.
fn archive(name: &str, object: &[u8]) -> Vec<u8> {
    let mut all = b"!<arch>\n".to_vec();
    let length = object.len();
    let head = format!(
        "{:<16}{:<12}{:<6}{:<6}{:<8}{length:<10}`\n",
        format!("{name}.o/"),
        0,
        0,
        0,
        644
    );
    all.extend(head.as_bytes());
    all.extend(object);
    if length % 2 == 1 {
        all.push(b'\n');
    }
    all
}

// Compiles the C file of a library, and returns the folder that has the library.
fn compiled(name: &str, source: &Path, header: &Path) -> PathBuf {
    let target = env::var("TARGET").unwrap_or_default();
    let out = env::var_os("OUT_DIR").map_or_else(PathBuf::new, PathBuf::from);
    let by = compiler(&target);
    let object = out.join(format!("{name}.o"));
    let include = header.parent().unwrap_or(Path::new("."));
    let mut words = by.split_whitespace();
    let mut command = Command::new(words.next().unwrap_or("cc"));
    command.args(words);
    if by.ends_with("cl") || by.ends_with("cl.exe") {
        command
            .args(["/nologo", "/O2", "/c"])
            .arg(format!("/Fo{}", object.display()));
    } else {
        command
            .args([
                "-std=c99",
                "-O2",
                "-fPIC",
                "-ffunction-sections",
                "-c",
                "-o",
            ])
            .arg(&object);
    }
    command.arg(format!("-I{}", include.display())).arg(source);
    match command.status() {
        Ok(status) if status.success() => {}
        Ok(_) => stop(&[&format!("{by} does not compile {}.", source.display())]),
        Err(_) => stop(&[
            &format!(
                "There is no C compiler {by}, which the target {target} needs: there the library is"
            ),
            "compiled from C. Install one, or name one by CC.",
        ]),
    }
    let library = out.join(if target.ends_with("msvc") {
        format!("{name}_c.lib")
    } else {
        format!("lib{name}_c.a")
    });
    let made = fs::read(&object).and_then(|bytes| fs::write(&library, archive(name, &bytes)));
    if made.is_err() {
        stop(&[&format!("{} cannot be written.", library.display())]);
    }
    out
}

// The C file of a library.
fn source_of(name: &str, top: &Path) -> PathBuf {
    let variable = format!("{}_C_SOURCE", name.to_uppercase());
    let source = named(&variable).map_or_else(
        || {
            either(
                top,
                &format!("c/{name}.c"),
                &format!("../../../dist/{name}.c"),
            )
        },
        PathBuf::from,
    );
    println!("cargo:rerun-if-changed={}", source.display());
    if !source.is_file() {
        stop(&[
            &format!("{} is not there.", source.display()),
            &format!("The library is compiled of {name}.c, which is in dist/ of the repository:"),
            &format!("name that file by the environment variable {variable}."),
        ]);
    }
    source
}

// The folder that has the archive of a library, if there is one. One that is named has to have it.
fn folder_of(name: &str, top: &Path) -> Option<PathBuf> {
    let file = format!("lib{name}_c.a");
    let variable = format!("{}_C_FOLDER", name.to_uppercase());
    let folder = named(&variable);
    let library = folder.as_ref().map_or_else(
        || {
            let built = format!("../../../crates/{name}_c/out/{file}");
            either(top, &format!("lib/{file}"), &built)
        },
        |folder| Path::new(folder).join(&file),
    );
    if library.is_file() {
        println!("cargo:rerun-if-changed={}", library.display());
        return library.parent().map(Path::to_path_buf);
    }
    // Where the toolchain may put it later. A missing file would make cargo build each time.
    let below = top.join(format!("../../../crates/{name}_c"));
    if below.is_dir() {
        println!("cargo:rerun-if-changed={}", below.display());
    }
    if folder.is_some() {
        stop(&[
            &format!("{} is not there, where {variable} says.", library.display()),
            &format!(
                "`rt lib` in crates/{name}_c proves and builds it, with the toolchain. Without the variable the"
            ),
            &format!("library is compiled of {name}.c by a C compiler."),
        ]);
    }
    None
}

// Gives cargo a library, and its header to the tests.
fn link(name: &str, top: &Path, has_archive: bool) {
    let (upper, header) = (name.to_uppercase(), format!("include/{name}.h"));
    let header = either(top, &header, &format!("../../../{header}"));
    println!("cargo:rustc-env={upper}_HEADER={}", header.display());
    println!("cargo:rerun-if-changed={}", header.display());
    let is_named = named(&format!("{upper}_C_SOURCE")).is_some();
    let built = if is_named || !has_archive {
        None
    } else {
        folder_of(name, top)
    };
    let folder = built.unwrap_or_else(|| compiled(name, &source_of(name, top), &header));
    println!("cargo:rustc-link-search=native={}", folder.display());
    println!("cargo:rustc-link-lib=static={name}_c");
}

fn main() {
    let top = env::var_os("CARGO_MANIFEST_DIR").map_or_else(PathBuf::new, PathBuf::from);
    let of = |name: &str| env::var(format!("CARGO_CFG_TARGET_{name}")).unwrap_or_default();
    let has_archive = of("ARCH") == "x86_64" && of("OS") == "linux" && of("POINTER_WIDTH") == "64";
    link("bech32", &top, has_archive);
    link("codex32", &top, has_archive);
}
