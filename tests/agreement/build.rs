//! Links target/staticlib/libukhtvaresh.a of the repository, made by `tools/build library`.

use std::path::Path;

fn main() {
    let here = std::env::var("CARGO_MANIFEST_DIR").expect("cargo says where the package lies");
    let folder = Path::new(&here).join("../../target/staticlib");
    println!("cargo:rustc-link-search=native={}", folder.display());
    println!("cargo:rustc-link-lib=static=ukhtvaresh");
    println!("cargo:rerun-if-changed={}", folder.join("libukhtvaresh.a").display());
}
