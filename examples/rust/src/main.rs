//! Folds a strand both ways, edits it, and shows a refusal. `examples/rust/run` builds and runs it.

use yukemasop::{nussinov, zuker_mfe, Editor};

fn main() -> yukemasop::Result<()> {
    let least = zuker_mfe(b"gggaaaaccc")?;
    println!(
        "least energy {:.3} kcal/mol, {}",
        least.energy,
        least.structure.to_dot_bracket()
    );

    let most = nussinov(b"gggaaaaccc", 3)?;
    println!(
        "most pairs {}, {}",
        most.max_pairs,
        most.structure.to_dot_bracket()
    );

    // The editor keeps letters and cells between keys, and gives what a fresh fold would.
    let mut editor = Editor::new(b"gggaaaaccc", 3)?;
    let count = editor.replace(9, b'A')?;
    println!(
        "with an A at the end {count}, {}",
        editor.structure().to_dot_bracket()
    );

    if let Err(refusal) = nussinov(b"GGXCC", 3) {
        println!("GGXCC is {refusal}");
    }
    Ok(())
}
