//! Links the proved static library, which stands in the repository's crates/horncurlew/out.

use std::path::Path;

fn main() {
    let folder = Path::new(env!("CARGO_MANIFEST_DIR")).join("../../crates/horncurlew/out");
    let archive = folder.join("libhorncurlew.a");
    println!("cargo::rerun-if-changed=build.rs");
    println!("cargo::rerun-if-changed={}", archive.display());
    if !archive.exists() {
        println!("cargo::warning={} isn't there: build it with `rt lib` in crates/horncurlew", archive.display());
    }
    println!("cargo::rustc-link-search=native={}", folder.display());
    println!("cargo::rustc-link-lib=static=horncurlew");
}
