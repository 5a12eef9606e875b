//! Lays the given source and our glue side by side in the build's own folder.
//!
//! Every file there is a copy in the build's folder, which is not part of the repository: the gate takes no links
//! below the checkout. The source is not changed: its `lib.rs` finds each module it names, the missing ones among our glue.

use std::env;
use std::error::Error;
use std::fs;
use std::path::{Path, PathBuf};

/// Where the source stands unless `PORTGRAPH_SRC` says otherwise, seen from the repository's root.
const DEFAULT_SOURCE: &str = "../shared/docs/src";

fn main() -> Result<(), Box<dyn Error>> {
    let package = PathBuf::from(env::var("CARGO_MANIFEST_DIR")?);
    let out = PathBuf::from(env::var("OUT_DIR")?);
    println!("cargo:rerun-if-env-changed=PORTGRAPH_SRC");

    let source = given_source(&package)?;
    let laid_out = out.join("laid_out");
    if laid_out.exists() {
        fs::remove_dir_all(&laid_out)?;
    }
    lay_out(&source, &laid_out)?;
    lay_out(&package.join("glue"), &laid_out)?;

    // `#[path]` takes no `env!`, hence a written file for src/lib.rs to include.
    let root = laid_out.join("lib.rs");
    fs::write(out.join("root.rs"), format!("#[path = {root:?}]\nmod given;\n"))?;
    Ok(())
}

/// The folder that holds the source's `lib.rs`, or a plain word that it is not there.
fn given_source(package: &Path) -> Result<PathBuf, Box<dyn Error>> {
    let repository = package.join("../..").canonicalize()?;
    let named = env::var("PORTGRAPH_SRC").unwrap_or_else(|_| DEFAULT_SOURCE.to_string());
    let source = repository.join(&named).join("src");
    if !source.join("lib.rs").is_file() {
        let place = source.display();
        return Err(
            format!("the portgraph source is not there: no lib.rs in {place} (PORTGRAPH_SRC is {named})").into()
        );
    }
    Ok(source.canonicalize()?)
}

/// Copies every file below `from` to the same place below `to`. Two files at one place are an error, so glue never
/// stands in for a file that was given.
fn lay_out(from: &Path, to: &Path) -> Result<(), Box<dyn Error>> {
    fs::create_dir_all(to)?;
    println!("cargo:rerun-if-changed={}", from.display());
    for entry in fs::read_dir(from)? {
        let entry = entry?;
        let target = to.join(entry.file_name());
        if entry.path().is_dir() {
            lay_out(&entry.path(), &target)?;
        } else {
            if target.exists() {
                return Err(format!("{}: there are two of it", target.display()).into());
            }
            fs::copy(entry.path(), &target).map_err(|error| format!("{}: {error}", target.display()))?;
        }
    }
    Ok(())
}
