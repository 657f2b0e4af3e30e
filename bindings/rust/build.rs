//! Links libfirmware.a, which `tools/build archive` writes; PLANNER_LIB names another folder that has it.
use std::{env, path::Path};

fn main() {
    assert_eq!(env::var("CARGO_CFG_TARGET_ARCH").unwrap(), "x86_64", "libfirmware.a is for x86-64");
    let here = env::var("CARGO_MANIFEST_DIR").unwrap();
    let made = Path::new(&here).join("../../target/staticlib");
    let folder = env::var("PLANNER_LIB").unwrap_or(made.display().to_string());
    let library = Path::new(&folder).join("libfirmware.a");
    assert!(library.exists(), "no {}: run `tools/build archive` first", library.display());
    println!("cargo:rustc-link-search=native={folder}");
    println!("cargo:rustc-link-lib=static=firmware");
    println!("cargo:rerun-if-changed={}", library.display());
    println!("cargo:rerun-if-env-changed=PLANNER_LIB");
}
