//! Links libargilosco.a from the folder ARGILOSCO_LIB, or from target/staticlib, where the gate leaves it.

use std::{env, path::PathBuf, process::exit};

fn main() {
    println!("cargo:rerun-if-env-changed=ARGILOSCO_LIB");
    let calls = ["EXPAND", "NORMALISE", "SCHEDULE"];
    if calls.iter().all(|call| env::var_os(format!("CARGO_FEATURE_{call}")).is_none()) {
        return;
    }
    let here = PathBuf::from(env::var_os("CARGO_MANIFEST_DIR").expect("set by cargo"));
    let folder = env::var_os("ARGILOSCO_LIB")
        .map_or_else(|| here.join("../../target/staticlib"), |folder| here.join(folder));
    let archive = folder.join("libargilosco.a");
    println!("cargo:rerun-if-changed={}", archive.display());
    if !archive.is_file() {
        eprintln!("{} is missing: copy crates/argilosco_c/out/libargilosco_c.a", archive.display());
        eprintln!("there, which `rt lib` makes, or say in ARGILOSCO_LIB which folder it is in");
        exit(1);
    }
    println!("cargo:rustc-link-search=native={}", folder.display());
    println!("cargo:rustc-link-lib=static=argilosco");
}
