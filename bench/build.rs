//! Compiles the lister over Gecode and links it.

use std::env;
use std::path::PathBuf;
use std::process::{exit, Command};

fn main() {
    println!("cargo:rerun-if-changed=gecode.cpp");
    let folder = PathBuf::from(env::var_os("OUT_DIR").expect("cargo names it"));
    let object = folder.join("gecode.o");
    let archive = folder.join("libgecode_lister.a");
    run(Command::new("g++")
        .args(["-O3", "-std=c++17", "-Wall", "-Wextra", "-fPIC", "-DNDEBUG"])
        .args(["-c", "gecode.cpp", "-o"])
        .arg(&object));
    run(Command::new("ar").arg("rcs").arg(&archive).arg(&object));
    println!("cargo:rustc-link-search=native={}", folder.display());
    println!("cargo:rustc-link-lib=static=gecode_lister");
    for library in ["search", "int", "kernel", "support"] {
        println!("cargo:rustc-link-lib=dylib=gecode{library}");
    }
    println!("cargo:rustc-link-lib=dylib=stdc++");
}

fn run(command: &mut Command) {
    match command.status() {
        Ok(status) if status.success() => {}
        Ok(_) => exit(1),
        Err(error) => {
            eprintln!(
                "bench: {:?} could not be run: {error}",
                command.get_program()
            );
            exit(1)
        }
    }
}
