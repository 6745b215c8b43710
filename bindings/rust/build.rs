// Finds libyukemasop.a: where YUKEMASOP_LIB says, or where `./archive` writes it.
use std::path::PathBuf;

fn main() {
    println!("cargo:rerun-if-env-changed=YUKEMASOP_LIB");
    if std::env::var_os("CARGO_FEATURE_BRIDGE").is_some() {
        return;
    }
    if std::env::var("CARGO_CFG_TARGET_ARCH").as_deref() != Ok("x86_64") {
        fail("libyukemasop.a is for x86-64: elsewhere use the feature `bridge` (tests/bridge/build makes its program).");
    }
    let folder = match std::env::var_os("YUKEMASOP_LIB") {
        Some(folder) => PathBuf::from(folder),
        None => PathBuf::from(env!("CARGO_MANIFEST_DIR")).join("../../target/staticlib"),
    };
    let archive = folder.join("libyukemasop.a");
    if !archive.exists() {
        fail("libyukemasop.a is missing: run `./archive` first, or set YUKEMASOP_LIB to its folder.");
    }
    println!("cargo:rerun-if-changed={}", archive.display());
    println!("cargo:rustc-link-search=native={}", folder.display());
    println!("cargo:rustc-link-lib=static=yukemasop");
}

fn fail(why: &str) -> ! {
    eprintln!("{why}");
    std::process::exit(1);
}
