//! Links the proved static library and the toolchain's own small C library, which is found through `rt`; or neither, if
//! `COMPARE_PROGRAM` names a program that runs the scripts. Links simdutf too if `COMPARE_SIMDUTF` names the folder of
//! the library that compare/simdutf builds. If `COMPARE_MOVED_BY` has a number of bytes, all code begins that many after a
//! multiple of 64.

use std::env;
use std::path::{Path, PathBuf};
use std::process::Command;

fn main() {
    println!("cargo:rustc-check-cfg=cfg(by_program)");
    println!("cargo:rerun-if-env-changed=COMPARE_PROGRAM");
    if env::var_os("COMPARE_PROGRAM").is_some() {
        println!("cargo:rustc-cfg=by_program");
    } else {
        link_library();
    }
    println!("cargo:rustc-check-cfg=cfg(simdutf)");
    println!("cargo:rerun-if-env-changed=COMPARE_SIMDUTF");
    if let Ok(folder) = env::var("COMPARE_SIMDUTF") {
        println!("cargo:rustc-cfg=simdutf");
        println!("cargo:rerun-if-changed={folder}/libsimdutf_calls.a");
        println!("cargo:rustc-link-search=native={folder}");
        println!("cargo:rustc-link-lib=static=simdutf_calls");
        println!("cargo:rustc-link-lib=stdc++");
    }
    println!("cargo:rustc-check-cfg=cfg(further)");
    println!("cargo:rustc-check-cfg=cfg(moved)");
    println!("cargo:rerun-if-env-changed=COMPARE_MOVED_BY");
    if env::var_os("COMPARE_MOVED_BY").is_some() {
        println!("cargo:rustc-cfg=moved");
    }
    // Only compilers that allow unstable features give access to the standard library's own WTF-8.
    println!("cargo:rustc-check-cfg=cfg(std_wtf8)");
    println!("cargo:rerun-if-env-changed=RUSTC_BOOTSTRAP");
    if env::var_os("RUSTC_BOOTSTRAP").is_some() {
        println!("cargo:rustc-cfg=std_wtf8");
    }
}

fn link_library() {
    let here = PathBuf::from(env::var("CARGO_MANIFEST_DIR").expect("cargo names the folder"));
    let library = here.join("../crates/compare_exports/out");
    println!(
        "cargo:rerun-if-changed={}",
        library.join("libcompare_exports.a").display()
    );
    println!("cargo:rustc-link-search=native={}", library.display());
    println!(
        "cargo:rustc-link-search=native={}",
        toolchain().join("c").display()
    );
    println!("cargo:rustc-link-lib=static=compare_exports");
    println!("cargo:rustc-link-lib=static=libc_c");
}

/// The folder of the page that `rt doc` names.
fn toolchain() -> PathBuf {
    let answer = Command::new("rt").arg("doc").output().expect("rt runs");
    let page = String::from_utf8(answer.stdout).expect("rt doc prints a path");
    let folder = Path::new(page.trim())
        .parent()
        .expect("the page lies in a folder");
    folder.to_path_buf()
}
