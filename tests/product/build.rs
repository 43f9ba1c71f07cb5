//! Says where the static library is: `BRIMCLIF_LIB`, or `target/staticlib` of the repository.

use std::env;
use std::path::{Path, PathBuf};

fn main() {
    let tests = Path::new(env!("CARGO_MANIFEST_DIR")).join("..");
    let repository = tests.join("..").join("target").join("staticlib");
    let folder = env::var_os("BRIMCLIF_LIB").map_or(repository, PathBuf::from);
    let library = folder.join("libbrimclif.a");
    println!("cargo::rerun-if-env-changed=BRIMCLIF_LIB");
    println!("cargo::rerun-if-changed={}", library.display());
    if !library.exists() {
        println!("cargo::error=libbrimclif.a is not there: run `bash tools/static_library.sh` in the repository's root, or set BRIMCLIF_LIB to its folder");
    }
    println!("cargo::rustc-link-search=native={}", folder.display());
    println!("cargo::rustc-link-lib=static=brimclif");
}
