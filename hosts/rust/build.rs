//! Links the static library from the folder that VARDDOHAS_LIB names, by default crates/varddohas/out of the repository.

use std::env;
use std::path::PathBuf;

fn main() {
    println!("cargo:rerun-if-env-changed=VARDDOHAS_LIB");
    let folder = env::var_os("VARDDOHAS_LIB").map(PathBuf::from).unwrap_or_else(|| {
        PathBuf::from(env::var_os("CARGO_MANIFEST_DIR").unwrap_or_default()).join("../../crates/varddohas/out")
    });
    println!("cargo:rerun-if-changed={}", folder.join("libvarddohas.a").display());
    println!("cargo:rustc-link-search=native={}", folder.display());
    println!("cargo:rustc-link-lib=static=varddohas");
}
