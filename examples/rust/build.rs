//! Asks pkg-config for the folder of the installed library and names the library to the linker: the shared one, or the
//! static one where BULHYEMIK_STATIC is set.

use std::path::Path;
use std::process::{exit, Command};

fn main() {
    println!("cargo:rerun-if-env-changed=BULHYEMIK_STATIC");
    println!("cargo:rerun-if-env-changed=PKG_CONFIG_PATH");
    let (kind, file) = match std::env::var_os("BULHYEMIK_STATIC") {
        Some(_) => ("static", "libbulhyemik.a"),
        None => ("dylib", "libbulhyemik.so"),
    };
    let folder = folder();
    let library = Path::new(&folder).join(file);
    if !library.exists() {
        stop(&format!("{} isn't there: install bulhyemik again", library.display()));
    }
    println!("cargo:rerun-if-changed={}", library.display());
    println!("cargo:rustc-link-search=native={folder}");
    println!("cargo:rustc-link-lib={kind}=bulhyemik");
}

fn folder() -> String {
    match Command::new("pkg-config").args(["--variable=libdir", "bulhyemik"]).output() {
        Ok(asked) if asked.status.success() => String::from_utf8_lossy(&asked.stdout).trim().to_string(),
        Ok(_) => stop("pkg-config doesn't find bulhyemik: install it, and let PKG_CONFIG_PATH name its lib/pkgconfig"),
        Err(why) => stop(&format!("pkg-config doesn't run ({why}): install it, since it tells where bulhyemik is")),
    }
}

fn stop(why: &str) -> ! {
    eprintln!("{why}");
    exit(1)
}
