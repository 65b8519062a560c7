//! Compiles the plain C versions with cc (or the compiler that CC names); where there is none, the benchmark goes without them.
//! With the library, names the archive that has its rounding by itself to the linker.

use std::env;
use std::io::ErrorKind;
use std::path::{Path, PathBuf};
use std::process::Command;

const SOURCES: [&str; 9] = ["judge", "lookup", "round", "in_force", "hole", "log", "read", "write", "load"];

/// Runs a command that has to work; false if there is no such program.
fn run(command: &mut Command) -> bool {
    match command.status() {
        Ok(status) => assert!(status.success(), "{command:?} failed"),
        Err(error) => {
            assert_eq!(error.kind(), ErrorKind::NotFound, "{command:?}: {error}");
            println!("cargo:warning=no plain C: {} is not installed", command.get_program().display());
            return false;
        }
    }
    true
}

fn main() {
    println!("cargo:rustc-check-cfg=cfg(plain_c)");
    println!("cargo:rerun-if-changed=c");
    println!("cargo:rerun-if-changed=../../include/bulhyemik.h");
    println!("cargo:rerun-if-env-changed=CC");
    let folder = env::var("OUT_DIR").expect("cargo sets it");
    let compiler = env::var("CC").unwrap_or("cc".into());
    let object = |source: &str| Path::new(&folder).join(source).with_extension("o");
    let compiled = SOURCES.iter().all(|source| {
        run(Command::new(&compiler)
            .args(["-std=c99", "-O3", "-fPIC", "-Wall", "-Wextra", "-pedantic", "-I../../include", "-c"])
            .arg(format!("c/{source}.c"))
            .arg("-o")
            .arg(object(source)))
    });
    let archive = Path::new(&folder).join("libplain_c.a");
    if compiled && run(Command::new("ar").arg("crs").arg(archive).args(SOURCES.map(object))) {
        println!("cargo:rustc-link-search=native={folder}");
        println!("cargo:rustc-link-lib=static=plain_c");
        println!("cargo:rustc-cfg=plain_c");
    }
    // told by the build script of `library`, which runs only with the feature of that name
    if let Some(folder) = env::var_os("DEP_BULHYEMIK_FOLDER").map(PathBuf::from) {
        println!("cargo:rerun-if-changed={}", folder.join("libtimed.a").display());
        println!("cargo:rustc-link-search=native={}", folder.display());
        println!("cargo:rustc-link-lib=static:-bundle=timed");
    }
}
