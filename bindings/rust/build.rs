//! Links libframehop_c.a and liblibc_c.a: from the folders of FRAMEHOP_LIB (separated by colons), or from the repository
//! that this crate is in, where `rt lib` builds the archive if it is missing or older than what it is made of. Where the
//! folders have libframehop.a, as `tools/install.sh` installs it, and not libframehop_c.a, that is linked in their place.
use std::collections::BTreeSet;
use std::fs;
use std::path::{Path, PathBuf};
use std::process::Command;
use std::time::SystemTime;

/// A crate with those of crates.txt that it stands on, directly or not. A line there is `NAME KIND: CRATE CRATE ..`.
fn with_dependencies(table: &str, name: &str, found: &mut BTreeSet<String>) {
    let line = table.lines().find(|line| line.split([' ', ':']).next() == Some(name));
    // the kit's own crates have no line
    let Some(line) = line else { return };
    if found.insert(name.to_string()) {
        let (_, others) = line.split_once(':').expect("a line of crates.txt");
        others.split_whitespace().for_each(|other| with_dependencies(table, other, found));
    }
}

/// The time of the last change in a file, or in a folder and all that is below it.
fn last_change(path: &Path) -> Option<SystemTime> {
    let changed = fs::metadata(path).ok()?.modified().ok();
    let inside = fs::read_dir(path).into_iter().flatten().flatten().filter_map(|it| last_change(&it.path()));
    inside.chain(changed).max()
}

/// The archive of the repository, built anew only if one of the crates that it is made of has changed since. Returns
/// the folders of the two archives.
fn archive_of(top: &Path) -> Vec<PathBuf> {
    let table = top.join("crates.txt");
    let mut crates = BTreeSet::new();
    with_dependencies(&fs::read_to_string(&table).expect("crates.txt"), "framehop_c", &mut crates);
    let parts = ["src", "specs", "proofs"];
    let folders = crates.iter().flat_map(|name| parts.map(|part| top.join("crates").join(name).join(part)));
    let sources: Vec<PathBuf> = folders.filter(|folder| folder.exists()).chain([table]).collect();
    let out = top.join("crates/framehop_c/out");
    let archive = out.join("libframehop_c.a");
    for watched in sources.iter().chain([&archive]) {
        println!("cargo:rerun-if-changed={}", watched.display());
    }
    let built = fs::metadata(&archive).and_then(|it| it.modified()).ok();
    if built.is_none() || sources.iter().filter_map(|source| last_change(source)).max() > built {
        let status = Command::new("rt").arg("lib").current_dir(top.join("crates/framehop_c")).status();
        assert!(
            status.is_ok_and(|status| status.success()),
            "`rt lib` failed in crates/framehop_c: set FRAMEHOP_LIB to the folders of libframehop_c.a and liblibc_c.a"
        );
    }
    let rt = Command::new("sh").args(["-c", "readlink -f \"$(command -v rt)\""]).output();
    let rt = PathBuf::from(String::from_utf8(rt.expect("sh").stdout).expect("a path").trim());
    let kit = rt.parent().and_then(Path::parent).expect("KIT/bin/rt").join("c");
    vec![out, kit]
}

fn main() {
    println!("cargo:rerun-if-changed=build.rs");
    println!("cargo:rerun-if-env-changed=FRAMEHOP_LIB");
    let folders: Vec<PathBuf> = match std::env::var_os("FRAMEHOP_LIB") {
        Some(folders) => std::env::split_paths(&folders).collect(),
        None => archive_of(&Path::new(env!("CARGO_MANIFEST_DIR")).join("../..")),
    };
    let is_there = |name: &str| folders.iter().any(|folder: &PathBuf| folder.join(name).is_file());
    let is_installed = is_there("libframehop.a") && !is_there("libframehop_c.a");
    let libraries: &[&str] = if is_installed { &["framehop"] } else { &["framehop_c", "libc_c"] };
    for folder in &folders {
        for archive in libraries.iter().map(|name| folder.join(format!("lib{name}.a"))) {
            if archive.exists() {
                println!("cargo:rerun-if-changed={}", archive.display());
            }
        }
        println!("cargo:rustc-link-search=native={}", folder.display());
    }
    for name in libraries {
        println!("cargo:rustc-link-lib=static={name}");
    }
}
