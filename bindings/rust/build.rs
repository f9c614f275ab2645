//! Tells where libdexasm.a is: the folder that DEXASM_LIB names, or where tools/build of this repository puts it.
use std::env;
use std::path::PathBuf;

fn main() {
    let folder = env::var_os("DEXASM_LIB").map_or_else(
        || PathBuf::from(env::var_os("CARGO_MANIFEST_DIR").unwrap()).join("../../crates/dexasm_c/out/built"),
        PathBuf::from,
    );
    let library = folder.join("libdexasm.a");
    println!("cargo:rerun-if-env-changed=DEXASM_LIB");
    println!("cargo:rerun-if-changed={}", library.display());
    if !library.exists() && env::var_os("DOCS_RS").is_none() {
        println!(
            "cargo:warning={} isn't there: `tools/build library` makes it, or DEXASM_LIB names its folder",
            library.display()
        );
    }
    println!("cargo:rustc-link-search=native={}", folder.display());
    println!("cargo:rustc-link-lib=static=dexasm");
}
