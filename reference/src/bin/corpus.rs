//! Writes the corpus: the files stdin and stdout of the programs compiler_cases, load_cases, board_cases, text_cases,
//! join_cases and explain_cases.

use std::path::Path;

fn main() -> std::io::Result<()> {
    let crates = Path::new(env!("CARGO_MANIFEST_DIR")).join("../crates");
    for corpus in reference::corpus::all() {
        let folder = crates.join(corpus.program);
        std::fs::create_dir_all(&folder)?;
        std::fs::write(folder.join("stdin"), &corpus.stdin)?;
        std::fs::write(folder.join("stdout"), &corpus.stdout)?;
        println!("{}: {} bytes\n{}", corpus.program, corpus.stdin.len(), corpus.stdout);
    }
    Ok(())
}
