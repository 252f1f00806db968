//! Links the archive that `tools/archive` makes at the repository's root.

use std::env;
use std::path::Path;

fn main() {
    let crate_folder = env::var("CARGO_MANIFEST_DIR").unwrap();
    let folder = Path::new(&crate_folder).join("../../target/staticlib");
    let archive = folder.join("libhost.a");
    assert!(
        archive.exists(),
        "{} is missing: run `tools/archive` at the repository's root",
        archive.display()
    );
    assert!(
        env::var("CARGO_CFG_TARGET_ARCH").unwrap() == "x86_64",
        "the archive is for x86-64"
    );
    println!("cargo:rerun-if-changed={}", archive.display());
    println!("cargo:rustc-link-search=native={}", folder.display());
    println!("cargo:rustc-link-lib=static=host");
}
