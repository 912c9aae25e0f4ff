//! Finds the archive `libmangerday.a`: in the folder that MANGERDAY_LIB names, as `link/install` leaves it, or else in
//! the repository's `target/staticlib`, where it leaves one too. And makes the table of refusals of the header's, so
//! that both have the same names and sentences: of the header beside that folder, `PREFIX/include` beside `PREFIX/lib`,
//! or else of the repository's. So a copy of this crate alone needs MANGERDAY_LIB and nothing of the repository.

use std::fmt::Write;
use std::path::{Path, PathBuf};
use std::{env, fs, process};

/// Ends the build with what to do.
fn fail(message: &str) -> ! {
    eprintln!("mangerday: {message}");
    process::exit(1);
}

fn variable(name: &str) -> PathBuf {
    env::var_os(name).map(PathBuf::from).unwrap_or_else(|| fail(&format!("cargo does not name {name}")))
}

/// What to do where a file of the model is not there.
const INSTALL: &str = "run `link/install PREFIX` at the root of the repository, and unset MANGERDAY_LIB or set it to \
                       the whole path of PREFIX/lib";

/// The folder that MANGERDAY_LIB names.
fn named() -> Option<PathBuf> {
    println!("cargo:rerun-if-env-changed=MANGERDAY_LIB");
    env::var_os("MANGERDAY_LIB").map(PathBuf::from)
}

fn link(folder: &Path) {
    let archive = folder.join("libmangerday.a");
    println!("cargo:rerun-if-changed={}", archive.display());
    if !archive.is_file() {
        fail(&format!("there is no {}: {INSTALL}", archive.display()));
    }
    println!("cargo:rustc-link-search=native={}", folder.display());
    println!("cargo:rustc-link-lib=static=mangerday");
}

/// The header: the one that was installed with the archive, or else the repository's.
fn header(named: Option<&Path>, root: &Path) -> PathBuf {
    let installed = named.map(|folder| folder.join("../include/mangerday.h"));
    let places: Vec<_> = installed.into_iter().chain([root.join("include/mangerday.h")]).collect();
    match places.iter().find(|path| path.is_file()) {
        Some(path) => path.clone(),
        None => fail(&format!("there is no {}: {INSTALL}", places[0].display())),
    }
}

/// Name, number and sentence of a row, where the line is one: `ROW(MD_ROW_NAME, 1, "sentence") \`.
fn row(line: &str) -> Option<(&str, usize, &str)> {
    let (name, rest) = line.trim().strip_prefix("ROW(MD_ROW_")?.split_once(", ")?;
    let (number, rest) = rest.split_once(", \"")?;
    let (sentence, _) = rest.rsplit_once("\")")?;
    Some((name, number.parse().ok()?, sentence))
}

/// The rows as constants with their sentences, and the sentences in the order of their numbers.
fn table(header: &str) -> String {
    let rows: Vec<_> = header.lines().filter_map(row).collect();
    if rows.len() != 16 || rows.iter().enumerate().any(|(i, (_, number, _))| *number != i + 1) {
        fail("include/mangerday.h has no table of 16 rows, each on a line of its own");
    }
    let mut found = String::new();
    for (name, number, sentence) in &rows {
        writeln!(found, "/// {sentence}\npub const {name}: u32 = {number};").expect("a string takes it");
    }
    let sentences: Vec<_> = rows.iter().map(|(_, _, sentence)| sentence).collect();
    writeln!(found, "pub(crate) const SENTENCES: [&str; {}] = {sentences:?};", rows.len()).expect("a string takes it");
    found
}

fn main() {
    let root = variable("CARGO_MANIFEST_DIR").join("../..");
    let named = named();
    link(&named.clone().unwrap_or_else(|| root.join("target/staticlib")));
    let header = header(named.as_deref(), &root);
    println!("cargo:rerun-if-changed={}", header.display());
    let text = fs::read_to_string(&header).unwrap_or_else(|error| fail(&format!("{}: {error}", header.display())));
    let rows = variable("OUT_DIR").join("row.rs");
    fs::write(&rows, table(&text)).unwrap_or_else(|error| fail(&format!("{}: {error}", rows.display())));
}
