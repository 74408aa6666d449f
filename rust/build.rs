// Links libukhtvaresh.a from the folder that UKHTVARESH_LIB names, absolute or relative to this one; where it names none,
// from ../target/staticlib, as in the repository, or from ../lib, as in the release archive.
use std::env;
use std::path::{Path, PathBuf};
use std::process::exit;

fn main() {
    println!("cargo:rerun-if-env-changed=UKHTVARESH_LIB");
    let folder = match env::var_os("UKHTVARESH_LIB") {
        Some(folder) => PathBuf::from(folder),
        None => {
            let here = PathBuf::from(env::var_os("CARGO_MANIFEST_DIR").expect("set by cargo"));
            let folders = ["../target/staticlib", "../lib"].map(|folder| here.join(folder));
            let [built, released] = &folders;
            if released.join("libukhtvaresh.a").is_file() && !built.join("libukhtvaresh.a").is_file() {
                released.clone()
            } else {
                built.clone()
            }
        }
    };
    let archive = folder.join("libukhtvaresh.a");
    println!("cargo:rerun-if-changed={}", archive.display());
    let Ok(folder) = folder.canonicalize() else {
        missing(&archive);
    };
    if !archive.is_file() {
        missing(&archive);
    }
    println!("cargo:rustc-link-search=native={}", folder.display());
    println!("cargo:rustc-link-lib=static=ukhtvaresh");
}

fn missing(archive: &Path) -> ! {
    eprintln!("There is no {}.", archive.display());
    eprintln!("Run `tools/build library` at the repository's top, or name its folder in UKHTVARESH_LIB.");
    exit(1)
}
