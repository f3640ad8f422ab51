//! Links the archive of crate exports: from the folder that CHJIRVOLLU_LIB names, else from where
//! `rt lib` puts it. With the feature vectors also that of crate vv's comparisons, from
//! where the script `run` puts it.

use std::env;
use std::path::PathBuf;

fn main() {
    let folder = match env::var_os("CHJIRVOLLU_LIB") {
        Some(folder) => PathBuf::from(folder),
        None => PathBuf::from(env!("CARGO_MANIFEST_DIR")).join("../../crates/exports/out"),
    };
    let archive = folder.join("libexports.a");
    println!("cargo::rerun-if-env-changed=CHJIRVOLLU_LIB");
    // Named even where it is not there, so that its arrival or change is noticed.
    println!("cargo::rerun-if-changed={}", archive.display());
    println!("cargo::rustc-link-search=native={}", folder.display());
    println!("cargo::rustc-link-lib=static=exports");
    if env::var_os("CARGO_FEATURE_VECTORS").is_some() {
        let folder = PathBuf::from(env!("CARGO_MANIFEST_DIR")).join("../../target/vectors");
        println!("cargo::rerun-if-changed={}", folder.join("libvectors.a").display());
        println!("cargo::rustc-link-search=native={}", folder.display());
        println!("cargo::rustc-link-lib=static=vectors");
    }
}
