//! Names the static library to the linker. Without it there is no host: nothing stands in for it.

use std::env;
use std::error::Error;
use std::path::PathBuf;

/// Where the library stands unless `VARDDOHAS_LIB` says otherwise, seen from the repository's root.
const DEFAULT_FOLDER: &str = "crates/varddohas/out";

fn main() -> Result<(), Box<dyn Error>> {
    println!("cargo:rerun-if-env-changed=VARDDOHAS_LIB");
    let package = PathBuf::from(env::var("CARGO_MANIFEST_DIR")?);
    let named = env::var("VARDDOHAS_LIB").unwrap_or_else(|_| DEFAULT_FOLDER.to_string());
    let folder = package.join("../..").join(&named);
    let library = folder.join("libvarddohas.a");
    if !library.is_file() {
        return Err(
            format!("the library is not there: {} (make it by `rt lib` in crates/varddohas)", library.display()).into()
        );
    }
    println!("cargo:rerun-if-changed={}", library.display());
    println!("cargo:rustc-link-search=native={}", folder.canonicalize()?.display());
    println!("cargo:rustc-link-lib=static=varddohas");
    Ok(())
}
