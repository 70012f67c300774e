//! Links the product's static library into the test program.
//!
//! The archive is the one that CORKBINGO_ARCHIVE names (a relative path counts from this folder),
//! else the one that the repository's own build writes.

use std::env;
use std::path::Path;

fn main() {
    let name = env::var("CORKBINGO_ARCHIVE")
        .unwrap_or_else(|_| String::from("../target/staticlib/libexports.a"));
    let folder = env::var("CARGO_MANIFEST_DIR").expect("cargo names the folder of the package");
    let archive = Path::new(&folder).join(name);
    println!("cargo::rerun-if-env-changed=CORKBINGO_ARCHIVE");
    println!("cargo::rerun-if-changed={}", archive.display());
    println!("cargo::rustc-link-arg-bins={}", archive.display());
}
