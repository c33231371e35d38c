//! Links libstrakewhip.a: from the folder that STRAKEWHIP_LIB names, or else from where `tools/library.sh` puts it.

use std::env;
use std::path::PathBuf;

fn main() {
    println!("cargo:rerun-if-env-changed=STRAKEWHIP_LIB");
    let own = PathBuf::from(env::var_os("CARGO_MANIFEST_DIR").expect("cargo names this folder"));
    let folder = match env::var_os("STRAKEWHIP_LIB") {
        Some(folder) => PathBuf::from(folder),
        None => own.join("../../crates/strakewhip/out"),
    };
    println!("cargo:rustc-link-search=native={}", folder.display());
    println!("cargo:rustc-link-lib=static=strakewhip");
    println!("cargo:rerun-if-changed={}", folder.join("libstrakewhip.a").display());
}
