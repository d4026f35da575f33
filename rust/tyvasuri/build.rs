//! Finds the checker's archive, or has it made and proved, and links it.

use std::io::ErrorKind;
use std::path::{Path, PathBuf};
use std::process::Command;
use std::{env, fs};

/// The variable that names an archive; it goes before the other ways.
const NAMED: &str = "TYVASURI_ARCHIVE";

/// An archive, and the paths whose change asks for another one.
struct Found {
    archive: PathBuf,
    watched: Vec<PathBuf>,
}

fn main() {
    println!("cargo::rerun-if-changed=build.rs");
    println!("cargo::rerun-if-env-changed={NAMED}");
    if let Err(message) = find().and_then(|found| link(&found)) {
        for line in message.lines() {
            println!("cargo::error={line}");
        }
    }
}

/// The archive that is named, else the one that is made, else the one that stands.
fn find() -> Result<Found, String> {
    if let Some(named) = env::var_os(NAMED) {
        return Ok(as_it_stands(named.into()));
    }
    let own = folder("CARGO_MANIFEST_DIR");
    let root = own.ancestors().nth(2).expect("the crate stands two folders below the root");
    let archive = root.join("target/staticlib/libchecker.a");
    match Command::new("rt").arg("version").output() {
        Ok(_) => made(root, archive),
        Err(error) if error.kind() != ErrorKind::NotFound => {
            Err(format!("`rt` cannot be started: {error}"))
        }
        Err(_) if archive.is_file() => Ok(as_it_stands(archive)),
        Err(_) => Err(missing(&archive)),
    }
}

/// The archive that `c/archive` makes.
fn made(root: &Path, archive: PathBuf) -> Result<Found, String> {
    match Command::new(root.join("c/archive")).output() {
        Ok(output) if output.status.success() => Ok(Found { archive, watched: sources(root)? }),
        Ok(output) => Err(not_made(&output.stdout, &output.stderr)),
        Err(error) => Err(format!("`c/archive` cannot be started: {error}")),
    }
}

/// What `rt` reads of the crates; beside it stands what it makes.
fn sources(root: &Path) -> Result<Vec<PathBuf>, String> {
    let crates = fs::read_dir(root.join("crates"))
        .map_err(|error| format!("the folder of the crates cannot be read: {error}"))?;
    let parts = crates
        .flatten()
        .flat_map(|one| ["src", "specs", "proofs"].map(|part| one.path().join(part)));
    Ok(parts.filter(|path| path.is_dir()).chain([root.join("crates.txt")]).collect())
}

/// An archive that this build did not make is itself what may change.
fn as_it_stands(archive: PathBuf) -> Found {
    Found { watched: vec![archive.clone()], archive }
}

/// A folder that cargo names.
fn folder(variable: &str) -> PathBuf {
    env::var_os(variable).expect("cargo sets this variable for a build script").into()
}

/// Says why `rt` made no archive, in its own words.
fn not_made(stdout: &[u8], stderr: &[u8]) -> String {
    let said = [stdout, stderr].map(String::from_utf8_lossy).concat();
    format!("`c/archive` did not make the checker's archive. It said:\n{said}")
}

/// Says what is missing, and the two ways to supply it.
fn missing(archive: &Path) -> String {
    format!(
        "the checker's archive is missing: there is no `rt` on the path and no {}\n\
         Put `rt` on the path, and this build makes the archive from its proved sources;\n\
         or name an archive that was made elsewhere: {NAMED}=/path/to/libchecker.a",
        archive.display()
    )
}

/// Links a copy of the archive, which a later build may make again.
fn link(found: &Found) -> Result<(), String> {
    for path in &found.watched {
        println!("cargo::rerun-if-changed={}", path.display());
    }
    let out = folder("OUT_DIR");
    fs::copy(&found.archive, out.join("libchecker.a")).map_err(|error| {
        format!("the archive {} cannot be copied: {error}", found.archive.display())
    })?;
    println!("cargo::rustc-link-search=native={}", out.display());
    println!("cargo::rustc-link-lib=static=checker");
    Ok(())
}
