//! Makes the copy of the original that `include!` accepts, since it refuses inner doc comments.

use std::{env, error::Error, fs, path::Path};

fn main() -> Result<(), Box<dyn Error>> {
    println!("cargo:rerun-if-changed=rna_structure.rs");
    let text = fs::read_to_string("rna_structure.rs")?;
    let lines = text.split_inclusive('\n');
    let leading = lines.take_while(|line| line.starts_with("//!"));
    let (comment, code) = text.split_at(leading.map(str::len).sum());
    let copy = comment.replace("//!", "//") + code;
    fs::write(
        Path::new(&env::var("OUT_DIR")?).join("rna_structure.rs"),
        copy,
    )?;
    Ok(())
}
