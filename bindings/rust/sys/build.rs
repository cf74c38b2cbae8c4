//! Links libnetbuff.a from the folder that NETBUFF_LIB_DIR names, or from target/staticlib of the
//! repository, where `.ci/archive` writes it.

use std::env;
use std::path::{Path, PathBuf};

const VARIABLE: &str = "NETBUFF_LIB_DIR";
const ARCHIVE: &str = "libnetbuff.a";
const ADVICE: &str = "run .ci/archive, or set NETBUFF_LIB_DIR to the folder of libnetbuff.a";

fn main() {
    println!("cargo::rerun-if-changed=build.rs");
    println!("cargo::rerun-if-env-changed={VARIABLE}");
    match folder() {
        Ok(folder) => {
            println!("cargo::rustc-link-search=native={}", folder.display());
            println!("cargo::rustc-link-lib=static=netbuff");
        }
        Err(problem) => println!("cargo::error={problem}: {ADVICE}"),
    }
}

fn folder() -> Result<PathBuf, String> {
    let (folder, said) = match env::var_os(VARIABLE) {
        Some(named) => (PathBuf::from(named), format!("{VARIABLE} is set, but ")),
        None => (
            Path::new(env!("CARGO_MANIFEST_DIR")).join("../../../target/staticlib"),
            String::new(),
        ),
    };
    let archive = folder.join(ARCHIVE);
    println!("cargo::rerun-if-changed={}", archive.display());
    if !folder.is_absolute() {
        return Err(format!("{said}{} is no whole path", folder.display()));
    }
    if !archive.is_file() {
        return Err(format!("{said}there is no {}", archive.display()));
    }
    Ok(folder)
}
