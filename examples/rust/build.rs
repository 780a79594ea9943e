//! Links liblemondarts.a: from the folder that LEMONDARTS_LIB names, else from target/staticlib of
//! the repository (`tools/archive` writes it there).

fn main() {
    println!("cargo:rerun-if-changed=build.rs");
    println!("cargo:rerun-if-env-changed=LEMONDARTS_LIB");
    let built = concat!(env!("CARGO_MANIFEST_DIR"), "/../../target/staticlib");
    let folder = std::env::var("LEMONDARTS_LIB").unwrap_or_else(|_| built.into());
    println!("cargo:rerun-if-changed={folder}/liblemondarts.a");
    println!("cargo:rustc-link-search=native={folder}");
    println!("cargo:rustc-link-lib=static=lemondarts");
}
