//! Finds the library for C: in the folder that FAK_C_DIR names, else by pkg-config.
//!
//! With FAK_C_DIR, FAK_C_HEAP names the folder of libfak_c_heap.a, the heap over malloc, or that of the toolchain's liblibc_c.a. If it is
//! not set, the program brings the heap's three functions itself, for instance by block.c. With DOCS_RS nothing is linked: documentation
//! needs no library.

use std::env::{self, VarError};
use std::ffi::OsString;
use std::fs;
use std::path::{Path, PathBuf};
use std::process::{exit, Command};

const PACKAGE: &str = "fak_c";
const ARCHIVE: &str = "libfak_c.a";
const VARIABLES: [&str; 7] = ["DOCS_RS", "FAK_C_DIR", "FAK_C_HEAP", "PKG_CONFIG", "PKG_CONFIG_PATH", "PKG_CONFIG_LIBDIR", "PATH"];

fn main() {
    for name in VARIABLES {
        println!("cargo:rerun-if-env-changed={name}");
    }
    if env::var_os("DOCS_RS").is_some() {
        return;
    }
    if let Err(missing) = find() {
        eprintln!("fak-seats: {missing}");
        exit(1);
    }
}

fn find() -> Result<(), String> {
    match env::var("FAK_C_DIR") {
        Ok(folder) => in_folder(Path::new(&folder)),
        Err(VarError::NotPresent) => by_pkg_config(),
        Err(error) => Err(format!("FAK_C_DIR: {error}")),
    }
}

// The archive is copied into the crate. So a later one makes cargo build the crate again.
fn link(folder: &Path, name: &str) {
    println!("cargo:rustc-link-search=native={}", folder.display());
    println!("cargo:rustc-link-lib=static={name}");
    println!("cargo:rerun-if-changed={}", folder.join(format!("lib{name}.a")).display());
}

// The version of an archive: what follows these words in the name of a symbol that it defines (version.c).
fn version_of(archive: &[u8]) -> Option<String> {
    let words = b"_needs_archive_";
    let at = archive.windows(words.len()).position(|window| window == words)? + words.len();
    let name = archive[at..].iter().take_while(|letter| letter.is_ascii_digit() || **letter == b'_');
    Some(name.map(|letter| char::from(*letter)).collect::<String>().replace('_', "."))
}

// Refuses an archive of another version than this crate's.
fn compare(archive: &Path) -> Result<(), String> {
    let bytes = fs::read(archive).map_err(|error| format!("{}: {error}", archive.display()))?;
    let wanted = env!("CARGO_PKG_VERSION");
    match version_of(&bytes) {
        Some(version) if version == wanted => Ok(()),
        Some(version) => Err(format!("this crate has version {wanted}, but {ARCHIVE} {version}: {}", archive.display())),
        None => Err(format!("this crate has version {wanted}, but {ARCHIVE} none: {}", archive.display())),
    }
}

fn in_folder(folder: &Path) -> Result<(), String> {
    let archive = folder.join(ARCHIVE);
    if !archive.is_file() {
        return Err(format!("FAK_C_DIR has no {ARCHIVE}: {}", folder.display()));
    }
    compare(&archive)?;
    link(folder, "fak_c");
    if let Ok(heap) = env::var("FAK_C_HEAP") {
        let heap = Path::new(&heap);
        let is_installed = heap.join("libfak_c_heap.a").is_file();
        link(heap, if is_installed { "fak_c_heap" } else { "libc_c" });
    }
    Ok(())
}

fn by_pkg_config() -> Result<(), String> {
    let program = env::var_os("PKG_CONFIG").unwrap_or_else(|| OsString::from("pkg-config"));
    let asked = Command::new(&program).env("PKG_CONFIG_PATH", search_path()).args(["--variable=libdir", PACKAGE]).output();
    let Ok(answer) = asked else {
        let name = Path::new(&program).display();
        return Err(format!("there is no {name} (Debian: apt-get install pkg-config); or FAK_C_DIR names the folder of {ARCHIVE}"));
    };
    let folder = String::from_utf8_lossy(&answer.stdout).trim().to_owned();
    if !answer.status.success() || folder.is_empty() {
        return Err(format!("pkg-config knows no {PACKAGE}: install it, and put PREFIX/lib/pkgconfig into PKG_CONFIG_PATH"));
    }
    compare(&Path::new(&folder).join(ARCHIVE))?;
    link(Path::new(&folder), "fak_c");
    link(Path::new(&folder), "fak_c_heap");
    Ok(())
}

// PKG_CONFIG_PATH, and after it the folder of the prefix that this crate is installed in, if it is.
fn search_path() -> OsString {
    let mut folders: Vec<PathBuf> = env::var_os("PKG_CONFIG_PATH").iter().flat_map(env::split_paths).collect();
    if let Some(own) = env::var_os("CARGO_MANIFEST_DIR") {
        folders.push(Path::new(&own).join("../../../lib/pkgconfig"));
    }
    env::join_paths(folders).unwrap_or_default()
}
