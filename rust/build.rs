//! Finds the static library: in WULGRANITE_LIB_DIR, or where `rt lib` in crates/capi writes it.

use std::path::PathBuf;

fn main() {
    println!("cargo:rerun-if-env-changed=WULGRANITE_LIB_DIR");
    let folder = match std::env::var_os("WULGRANITE_LIB_DIR") {
        Some(folder) => PathBuf::from(folder),
        None => PathBuf::from(std::env::var_os("CARGO_MANIFEST_DIR").unwrap())
            .join("../crates/capi/out"),
    };
    let library = folder.join("libcapi.a");
    println!("cargo:rerun-if-changed={}", library.display());
    if !library.exists() {
        panic!(
            "{} is missing: run `rt lib` in crates/capi first, or say in WULGRANITE_LIB_DIR where libcapi.a is",
            library.display()
        );
    }
    println!("cargo:rustc-link-search=native={}", folder.display());
    println!("cargo:rustc-link-lib=static=capi");
}
