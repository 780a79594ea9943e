//! Compiles by_hand.c twice, as plain C and with SSE2, by CC, else gcc; and links liblemondarts.a: the one that
//! ARCHIVE names by its whole path, else that of target/staticlib (`tools/archive` writes it).

use std::process::Command;

fn main() {
    println!("cargo:rerun-if-changed=build.rs");
    compile_by_hand("by_hand", &[]);
    compile_by_hand("by_hand_with_sse2", &["-DWITH_SSE2"]);
    if std::env::var_os("CARGO_FEATURE_SELF").is_some() {
        return;
    }
    println!("cargo:rerun-if-env-changed=ARCHIVE");
    let built = concat!(env!("CARGO_MANIFEST_DIR"), "/../target/staticlib/liblemondarts.a");
    let archive = std::env::var("ARCHIVE").unwrap_or_else(|_| built.into());
    println!("cargo:rerun-if-changed={archive}");
    println!("cargo:rustc-link-arg={archive}");
}

fn compile_by_hand(name: &str, define: &[&str]) {
    let (source, include) = ("by_hand.c", "../include");
    println!("cargo:rerun-if-changed={source}");
    println!("cargo:rerun-if-changed={include}/lemondarts.h");
    println!("cargo:rerun-if-env-changed=CC");
    let object = format!("{}/{name}.o", std::env::var("OUT_DIR").expect("cargo sets it"));
    let compiler = std::env::var("CC").unwrap_or_else(|_| "gcc".into());
    let flags = ["-std=c99", "-O3", "-Wall", "-Wextra", "-Werror", "-I", include, "-c", source, "-o", &object];
    let status = Command::new(&compiler).args(flags).args(define).status().expect("a C compiler");
    assert!(status.success(), "{compiler} does not compile {source}");
    println!("cargo:rustc-link-arg={object}");
}
