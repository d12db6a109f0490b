//! Finds the static library, or has it made: `STOR_LIBRARY` names a ready one,
//! else `rt lib` in `crates/host` proves and writes it, and where there is no
//! `rt` an earlier one is taken as it is.

use std::env;
use std::path::{Path, PathBuf};
use std::process::{exit, Command};

/// An environment variable with the path of a ready `libhost.a`.
const READY: &str = "STOR_LIBRARY";

fn main() {
    let root = root();
    println!("cargo:rerun-if-env-changed={READY}");
    let library = match env::var_os(READY) {
        Some(path) => root.join(path),
        None => made(&root),
    };
    if !library.is_file() {
        fail(&format!("there is no library at {}", library.display()));
    }
    let folder = library.parent().expect("a file is in a folder");
    let name = library.file_name().and_then(|name| name.to_str());
    if name != Some("libhost.a") {
        fail(&format!("{READY} names no file libhost.a"));
    }
    println!("cargo:rerun-if-changed={}", library.display());
    println!("cargo:rustc-link-search=native={}", folder.display());
    println!("cargo:rustc-link-lib=static=host");
}

/// The repository's root, two folders up.
fn root() -> PathBuf {
    let here = env::var_os("CARGO_MANIFEST_DIR").expect("cargo says where the package is");
    Path::new(&here)
        .ancestors()
        .nth(2)
        .expect("the package stands in the repository")
        .to_path_buf()
}

/// The library by the toolchain, anew wherever a crate has changed.
fn made(root: &Path) -> PathBuf {
    let host = root.join("crates/host");
    let library = host.join("out/libhost.a");
    let sources = sources(root);
    for source in &sources {
        println!("cargo:rerun-if-changed={}", source.display());
    }
    if library.is_file() && !older(&library, sources) {
        return library;
    }
    match Command::new("rt").arg("lib").current_dir(host).output() {
        Ok(output) if output.status.success() => {}
        Ok(output) => fail(&format!(
            "rt lib failed in crates/host:\n{}{}",
            String::from_utf8_lossy(&output.stdout),
            String::from_utf8_lossy(&output.stderr)
        )),
        Err(_) if library.is_file() => println!(
            "cargo:warning=the toolchain's command rt is not on this machine: {} may be older than the crates",
            library.display()
        ),
        Err(_) => fail(&format!(
            "the toolchain's command rt is not on this machine, and {READY} names no library"
        )),
    }
    library
}

/// What crates are made of: their list, and of each all but what `rt` makes of
/// it, its tests and its output.
fn sources(root: &Path) -> Vec<PathBuf> {
    let mut sources: Vec<PathBuf> = entries(&root.join("crates"))
        .flat_map(|named| ["src", "specs", "proofs"].map(|part| named.join(part)))
        .filter(|folder| folder.is_dir())
        .collect();
    sources.push(root.join("crates.txt"));
    sources
}

/// Whether some file of these, or in these folders, is newer than the library.
fn older(library: &Path, sources: Vec<PathBuf>) -> bool {
    let changed = |path: &Path| path.metadata().and_then(|known| known.modified()).ok();
    let made = changed(library);
    let mut left = sources;
    let mut newest = None;
    while let Some(path) = left.pop() {
        newest = newest.max(changed(&path));
        left.extend(entries(&path));
    }
    newest > made
}

/// What stands in a folder; nothing in a file.
fn entries(folder: &Path) -> impl Iterator<Item = PathBuf> {
    let found = folder.read_dir().into_iter().flatten().flatten();
    found.map(|entry| entry.path())
}

fn fail(why: &str) -> ! {
    eprintln!("stor: {why}");
    exit(1)
}
