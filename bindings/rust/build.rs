//! Says where `libledgerfern.a` is: in the folder that LEDGERFERN_LIB names, or where `tools/archive` writes it.
use std::env;
use std::path::PathBuf;

fn main() {
    println!("cargo:rerun-if-env-changed=LEDGERFERN_LIB");
    let folder = match (env::var_os("LEDGERFERN_LIB"), env::var_os("CARGO_MANIFEST_DIR")) {
        (Some(folder), _) => PathBuf::from(folder),
        (None, Some(here)) => PathBuf::from(here).join("../../target/staticlib"),
        (None, None) => PathBuf::from("."),
    };
    println!("cargo:rerun-if-changed={}", folder.join("libledgerfern.a").display());
    println!("cargo:rustc-link-search=native={}", folder.display());
    println!("cargo:rustc-link-lib=static=ledgerfern");
}
