//! Declares the six files of jxl-vardct as modules where they stand: ../shared/docs/src/src beside
//! the repository, or the folder that NETBUFF_JXL_VARDCT names. Without them the crate is empty; where
//! the variable is set and they are not there, that is an error.

use std::path::{Path, PathBuf};
use std::{env, fs};

const VARIABLE: &str = "NETBUFF_JXL_VARDCT";
const FILES: [&str; 6] = [
    "dct_select",
    "error",
    "hf_coeff",
    "hf_metadata",
    "hf_pass",
    "lf",
];

fn main() {
    println!("cargo::rerun-if-changed=build.rs");
    println!("cargo::rerun-if-env-changed={VARIABLE}");
    let named = env::var_os(VARIABLE).map(PathBuf::from);
    let beside = || Path::new(env!("CARGO_MANIFEST_DIR")).join("../../../shared/docs/src/src");
    let folder = named.clone().unwrap_or_else(beside);
    let folder = folder.canonicalize().unwrap_or(folder);
    match modules(&folder) {
        Ok(modules) => {
            let out = PathBuf::from(env::var_os("OUT_DIR").expect("cargo sets OUT_DIR"));
            fs::write(out.join("modules.rs"), modules).expect("OUT_DIR can be written");
            println!("cargo::rustc-cfg=live");
            println!("cargo::metadata=live=1");
        }
        Err(missing) if named.is_some() => println!(
            "cargo::error={VARIABLE} is set, but there is no {}: set it to the whole path of \
             jxl-vardct's src folder, or unset it",
            missing.display()
        ),
        Err(_) => (),
    }
}

/// A declaration for each file, or the file that is not there.
fn modules(folder: &Path) -> Result<String, PathBuf> {
    let mut modules = String::new();
    for name in FILES {
        let file = folder.join(name).with_extension("rs");
        println!("cargo::rerun-if-changed={}", file.display());
        if !file.is_file() {
            return Err(file);
        }
        modules += &format!(
            "#[path = {file:?}]\n#[allow(clippy::all, dead_code, static_mut_refs)]\nmod {name};\n"
        );
    }
    Ok(modules)
}
