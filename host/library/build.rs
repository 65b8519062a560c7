//! Names the static library build/libbulhyemik.a, or the one in the folder BULHYEMIK_LIBRARY, to the linker, and its folder to
//! the build script of `bench`.

use std::env;
use std::path::PathBuf;

fn main() {
    let folder = env::var_os("BULHYEMIK_LIBRARY").map_or_else(
        || PathBuf::from(env::var_os("CARGO_MANIFEST_DIR").expect("cargo sets it")).join("../../build"),
        PathBuf::from,
    );
    println!("cargo:rerun-if-env-changed=BULHYEMIK_LIBRARY");
    println!("cargo:rerun-if-changed={}", folder.join("libbulhyemik.a").display());
    println!("cargo:rustc-link-search=native={}", folder.display());
    println!("cargo:rustc-link-lib=static:-bundle=bulhyemik");
    println!("cargo:folder={}", folder.display());
}
