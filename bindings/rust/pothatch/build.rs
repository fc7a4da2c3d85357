//! Finds libpothatch.a: in POTHATCH_LIB_DIR, or where install.sh puts it beside this crate (PREFIX/share/pothatch/rust/pothatch).
use std::path::PathBuf;

fn main() {
    println!("cargo:rerun-if-env-changed=POTHATCH_LIB_DIR");
    let here = PathBuf::from(std::env::var_os("CARGO_MANIFEST_DIR").expect("cargo sets it"));
    let given = std::env::var_os("POTHATCH_LIB_DIR").map(PathBuf::from);
    let folder = given.unwrap_or_else(|| here.join("../../../../lib"));
    let archive = folder.join("libpothatch.a");
    if !archive.exists() {
        panic!("{} does not exist: set POTHATCH_LIB_DIR to the folder of libpothatch.a", archive.display());
    }
    println!("cargo:rerun-if-changed={}", archive.display());
    println!("cargo:rustc-link-search=native={}", folder.display());
    println!("cargo:rustc-link-lib=static=pothatch");
}
