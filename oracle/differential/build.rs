//! Links librook_probe.a, which `tools/archive rook_probe` writes.
use std::path::PathBuf;

fn main() {
    let folder = PathBuf::from(env!("CARGO_MANIFEST_DIR")).join("../../target/staticlib");
    println!(
        "cargo:rerun-if-changed={}",
        folder.join("librook_probe.a").display()
    );
    println!("cargo:rustc-link-search=native={}", folder.display());
    println!("cargo:rustc-link-lib=static=rook_probe");
}
