//! Tells cargo where libdunefork.a is: in DUNEFORK_LIB_DIR, or in the repository that this crate stands in, where the
//! command rt of the Rattle kit proves and builds it.
use std::env;
use std::fs;
use std::io::ErrorKind;
use std::path::{Path, PathBuf};
use std::process::{exit, Command};

fn main() {
    println!("cargo:rerun-if-env-changed=DUNEFORK_LIB_DIR");
    println!("cargo:rerun-if-changed=build.rs");
    if env::var("CARGO_CFG_TARGET_ARCH").as_deref() != Ok("x86_64") {
        fail("the static library is for x86-64 only");
    }
    let dir = match env::var_os("DUNEFORK_LIB_DIR") {
        Some(dir) => given(Path::new(&dir)),
        None => built(),
    };
    println!("cargo:rustc-link-search=native={}", dir.display());
    println!("cargo:rustc-link-lib=static=dunefork");
}

/// The folder that holds the archive already.
fn given(dir: &Path) -> PathBuf {
    match dir.canonicalize() {
        Ok(dir) if dir.join("libdunefork.a").is_file() => {
            println!("cargo:rerun-if-changed={}", dir.join("libdunefork.a").display());
            dir
        }
        _ => fail(&format!("DUNEFORK_LIB_DIR is {}, and there is no libdunefork.a", dir.display())),
    }
}

/// Proves and builds the archive in the repository two folders up.
fn built() -> PathBuf {
    let root = Path::new(&env::var("CARGO_MANIFEST_DIR").unwrap()).join("../..");
    if !root.join("crates/dunefork/src/lib.rt").is_file() {
        fail("this crate does not stand in the repository of dunefork: set DUNEFORK_LIB_DIR to the folder of libdunefork.a");
    }
    // what is proved, and not what proving writes beside it
    for dir in fs::read_dir(root.join("crates")).into_iter().flatten().flatten() {
        for part in ["src", "specs", "proofs"] {
            println!("cargo:rerun-if-changed={}", dir.path().join(part).display());
        }
    }
    println!("cargo:rerun-if-changed={}", root.join("crates.txt").display());
    match Command::new(root.join("tools/staticlib")).output() {
        Ok(run) if run.status.success() => root.join("target/staticlib"),
        Ok(run) => {
            let told = String::from_utf8_lossy(&run.stdout).into_owned() + &String::from_utf8_lossy(&run.stderr);
            let lines: Vec<&str> = told.lines().collect();
            let last = lines[lines.len().saturating_sub(10)..].join("\n");
            fail(&format!(
                "'tools/staticlib' failed ({}); install the kit, or set DUNEFORK_LIB_DIR to the folder of a libdunefork.a; its last \
                 lines:\n{last}",
                run.status
            ))
        }
        Err(error) if error.kind() == ErrorKind::NotFound => fail(
            "the repository has no tools/staticlib, and DUNEFORK_LIB_DIR is not set: set DUNEFORK_LIB_DIR to the folder of a libdunefork.a",
        ),
        Err(error) => fail(&format!("'tools/staticlib' was not started: {error}")),
    }
}

fn fail(why: &str) -> ! {
    eprintln!("dunefork: {why}");
    exit(1)
}
