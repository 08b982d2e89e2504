//! Links the planner's archive: from the folder that PLANNER_LIB_DIR names, else from where `./archive` makes it.

use std::env;
use std::path::{Path, PathBuf};
use std::process::exit;

fn main() {
    println!("cargo:rerun-if-changed=build.rs");
    println!("cargo:rerun-if-env-changed=PLANNER_LIB_DIR");
    let here = env::var("CARGO_MANIFEST_DIR").unwrap_or_default();
    let folder = env::var_os("PLANNER_LIB_DIR")
        .map_or_else(|| Path::new(&here).join("../target/staticlib"), PathBuf::from);
    let archive = folder.join("libplanner.a");
    println!("cargo:rerun-if-changed={}", archive.display());
    if !archive.is_file() {
        eprintln!("{} is not there: run `./archive`, or set PLANNER_LIB_DIR", archive.display());
        exit(1);
    }
    println!("cargo:rustc-link-search=native={}", folder.display());
    println!("cargo:rustc-link-lib=static=planner");
}
