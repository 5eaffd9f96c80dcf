//! Links the static library, and compiles `jdoc_file.c` with the compiler that `CC` names, else `cc`. `JDOC_LIBRARIES` names the folders of
//! `libjdoc_c.a` and of the toolchain's `liblibc_c.a`, separated by a colon; by default they are those of the repository and of the `rt` on
//! the PATH. `JDOC_INCLUDE` names the folder of `jdoc_file.c`; by default it is that of the repository.

use std::path::{Path, PathBuf};
use std::process::Command;

fn main() {
    println!("cargo:rerun-if-env-changed=JDOC_LIBRARIES");
    println!("cargo:rerun-if-env-changed=JDOC_INCLUDE");
    println!("cargo:rerun-if-env-changed=CC");
    compile_file();
    for folder in folders() {
        println!("cargo:rustc-link-search=native={}", folder.display());
        println!("cargo:rerun-if-changed={}", folder.display());
    }
    println!("cargo:rustc-link-lib=static=jdoc_c");
    println!("cargo:rustc-link-lib=static=libc_c");
}

fn folders() -> Vec<PathBuf> {
    if let Some(folders) = std::env::var_os("JDOC_LIBRARIES") {
        return std::env::split_paths(&folders).collect();
    }
    let page = Command::new("rt")
        .arg("doc")
        .output()
        .expect("JDOC_LIBRARIES isn't set, and there is no rt");
    let page = PathBuf::from(String::from_utf8(page.stdout).expect("a path").trim_end());
    let kit = page.parent().expect("a folder").join("c");
    vec![here().join("../../crates/jdoc_c/out"), kit]
}

/// Makes a library of `jdoc_file.c`.
fn compile_file() {
    let include = std::env::var_os("JDOC_INCLUDE")
        .map_or_else(|| here().join("../../include"), PathBuf::from);
    let made = PathBuf::from(std::env::var_os("OUT_DIR").expect("cargo sets it"));
    let compiler = std::env::var_os("CC").unwrap_or_else(|| "cc".into());
    let object = made.join("jdoc_file.o");
    let source = include.join("jdoc_file.c");
    run(Command::new(compiler)
        .args(["-std=c11", "-O2", "-fPIC", "-pthread", "-c", "-o"])
        .args([&object, &source]));
    let archive = made.join("libjdoc_file.a");
    run(Command::new("ar").arg("rcs").args([&archive, &object]));
    for name in ["jdoc.h", "jdoc_file.h", "jdoc_file.c"] {
        println!("cargo:rerun-if-changed={}", include.join(name).display());
    }
    println!("cargo:rustc-link-search=native={}", made.display());
    println!("cargo:rustc-link-lib=static=jdoc_file");
}

fn run(command: &mut Command) {
    let status = command.status();
    assert!(
        status.as_ref().is_ok_and(|it| it.success()),
        "{command:?} ended with {status:?}"
    );
}

fn here() -> &'static Path {
    Path::new(env!("CARGO_MANIFEST_DIR"))
}
