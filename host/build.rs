//! Links the proved part, `target/staticlib/libdillplatter.a`, which `tools/build` writes.

use std::path::Path;

fn main() {
    let top = Path::new(env!("CARGO_MANIFEST_DIR")).join("..");
    let folder = top.join("target").join("staticlib");
    let archive = folder.join("libdillplatter.a");
    println!("cargo:rerun-if-changed={}", archive.display());
    if !archive.is_file() {
        eprintln!(
            "target/staticlib/libdillplatter.a is missing: run `tools/build` at the top first"
        );
        std::process::exit(1);
    }
    println!("cargo:rustc-link-search=native={}", folder.display());
    println!("cargo:rustc-link-lib=static=dillplatter");
}
