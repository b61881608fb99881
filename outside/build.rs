//! Links the proved library, a static archive that `tools/build interface` makes in the repository's root.

use std::env;
use std::path::PathBuf;

fn main() {
    println!("cargo:rerun-if-env-changed=GWERNILOC_LIB");
    let folder = match env::var_os("GWERNILOC_LIB") {
        Some(folder) => PathBuf::from(folder),
        None => PathBuf::from(env::var_os("CARGO_MANIFEST_DIR").expect("cargo sets this")).join("../target/staticlib"),
    };
    let archive = folder.join("libinterface.a");
    println!("cargo:rerun-if-changed={}", archive.display());
    if !archive.is_file() {
        panic!("{} is missing; make it with `tools/build interface`", archive.display());
    }
    println!("cargo:rustc-link-search=native={}", folder.display());
    println!("cargo:rustc-link-lib=static=interface");
}
