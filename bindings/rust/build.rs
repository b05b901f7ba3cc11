// Links liblift.a: from the folder LIFT_LIB_DIR, or else from where `examples/archive` writes it in this repository.
use std::{env, path::PathBuf};

fn main() {
    println!("cargo::rerun-if-env-changed=LIFT_LIB_DIR");
    let here = PathBuf::from(env::var_os("CARGO_MANIFEST_DIR").expect("cargo sets it"));
    let folder = env::var_os("LIFT_LIB_DIR").map_or(here.join("../../target/staticlib"), PathBuf::from);
    let archive = folder.join("liblift.a");
    if !archive.exists() {
        println!("cargo::error=no {}: run `examples/archive`, or say in LIFT_LIB_DIR where it is", archive.display());
        return;
    }
    println!("cargo::rerun-if-changed={}", archive.display());
    println!("cargo::rustc-link-search=native={}", folder.display());
    println!("cargo::rustc-link-lib=static=lift");
}
