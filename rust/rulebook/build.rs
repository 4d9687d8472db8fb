//! Finds the proved archive, or has it made, and tells cargo to link it.
//!
//! The archive is `crates/rulebook_c/out/librulebook_c.a`, which `rt lib` in that crate's folder
//! proves and writes. Where RULEBOOK_ARCHIVE names another, that one is linked and nothing is made;
//! a relative path counts from the repository's root.

use std::env;
use std::fs;
use std::io;
use std::path::{Path, PathBuf};
use std::process::{exit, Command};
use std::time::SystemTime;

const NAMED: &str = "RULEBOOK_ARCHIVE";

/// What a crate's archive is made of; beside it `rt` keeps work of its own in `out`.
const PARTS: [&str; 3] = ["src", "specs", "proofs"];

fn main() {
    println!("cargo:rerun-if-env-changed={NAMED}");
    println!("cargo:rerun-if-changed=build.rs");
    let archive = match env::var_os(NAMED) {
        Some(named) => named_archive(root().join(named)),
        None => own_archive(&root()),
    };
    println!("cargo:rerun-if-changed={}", archive.display());
    link(&archive);
}

/// The repository's root, two folders above this crate.
fn root() -> PathBuf {
    let crate_folder = PathBuf::from(env::var_os("CARGO_MANIFEST_DIR").expect("cargo names it"));
    crate_folder.ancestors().nth(2).unwrap().to_path_buf()
}

fn named_archive(archive: PathBuf) -> PathBuf {
    if !archive.is_file() {
        stop(&format!(
            "{NAMED} names {}, which is no file",
            archive.display()
        ));
    }
    archive
}

/// The archive of this repository, made where it is missing or older than the crates it is of.
fn own_archive(root: &Path) -> PathBuf {
    let archive = root.join("crates/rulebook_c/out/librulebook_c.a");
    let mut sources = parts(&root.join("crates"));
    sources.push(root.join("crates.txt"));
    for source in &sources {
        println!("cargo:rerun-if-changed={}", source.display());
    }
    let changed = sources.iter().filter_map(|source| newest(source)).max();
    if modified(&archive).is_none_or(|made| changed.is_some_and(|changed| made < changed)) {
        make(root, &archive);
    }
    archive
}

/// The folders of every crate that the prover reads.
fn parts(crates: &Path) -> Vec<PathBuf> {
    let entries = fs::read_dir(crates).into_iter().flatten();
    entries
        .filter_map(|entry| Some(entry.ok()?.path()))
        .flat_map(|folder| PARTS.map(|part| folder.join(part)))
        .filter(|part| part.is_dir())
        .collect()
}

/// When the last changed file at or below a path was changed.
fn newest(path: &Path) -> Option<SystemTime> {
    match fs::read_dir(path) {
        Ok(entries) => entries
            .filter_map(|entry| newest(&entry.ok()?.path()))
            .max(),
        Err(_) => modified(path),
    }
}

fn modified(path: &Path) -> Option<SystemTime> {
    fs::metadata(path).and_then(|data| data.modified()).ok()
}

fn make(root: &Path, archive: &Path) {
    let made = Command::new("rt")
        .arg("lib")
        .current_dir(root.join("crates/rulebook_c"))
        .output();
    match made {
        Ok(said) if said.status.success() && archive.is_file() => {}
        Ok(said) => {
            // Not to standard output, where cargo would look for orders in it.
            eprint!("{}", String::from_utf8_lossy(&said.stdout));
            eprint!("{}", String::from_utf8_lossy(&said.stderr));
            stop("'rt lib' did not make the archive of rulebook_c; what it said stands above");
        }
        Err(error) if error.kind() == io::ErrorKind::NotFound && archive.is_file() => {
            println!(
                "cargo:warning=the archive is older than the crates it is of, and the command 'rt', \
                 which would make it again, is not on the PATH: linking the older one"
            );
        }
        Err(error) if error.kind() == io::ErrorKind::NotFound => stop(
            "there is no crates/rulebook_c/out/librulebook_c.a, and the command 'rt' of the Rattle \
             kit, which proves the library and makes that archive, is not on the PATH. Put it there, \
             or set RULEBOOK_ARCHIVE to an archive that 'rt lib' made elsewhere",
        ),
        Err(error) => stop(&format!("'rt' could not be run: {error}")),
    }
}

/// Links a copy under the name that the linker asks for, whatever the archive is called.
fn link(archive: &Path) {
    let folder = PathBuf::from(env::var_os("OUT_DIR").expect("cargo names it"));
    if let Err(error) = fs::copy(archive, folder.join("librulebook_c.a")) {
        stop(&format!(
            "{} could not be copied: {error}",
            archive.display()
        ));
    }
    println!("cargo:rustc-link-search=native={}", folder.display());
    println!("cargo:rustc-link-lib=static=rulebook_c");
}

fn stop(why: &str) -> ! {
    eprintln!("rulebook: {why}");
    exit(1)
}
