//! Links target/staticlib/liblemondarts.a of the repository (`tools/archive` writes it).

fn main() {
    println!("cargo:rerun-if-changed=build.rs");
    if std::env::var_os("CARGO_FEATURE_SELF").is_some() {
        return;
    }
    let folder = concat!(env!("CARGO_MANIFEST_DIR"), "/../../target/staticlib");
    println!("cargo:rerun-if-changed={folder}/liblemondarts.a");
    println!("cargo:rustc-link-search=native={folder}");
    println!("cargo:rustc-link-lib=static=lemondarts");
}
