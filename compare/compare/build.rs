//! The comparison is compiled where the Rust under comparison was found. The benchmark tells which
//! compiler made it.

use std::env;
use std::process::Command;

fn main() {
    println!("cargo:rerun-if-changed=build.rs");
    println!("cargo:rustc-env=COMPILED_BY={}", compiler());
    if env::var_os("DEP_JXL_VARDCT_LIVE").is_some() {
        println!("cargo:rustc-cfg=live");
    }
}

fn compiler() -> String {
    let compiler = env::var_os("RUSTC").unwrap_or("rustc".into());
    let said = Command::new(compiler).arg("--version").output();
    let version = said.map(|said| String::from_utf8_lossy(&said.stdout).trim().to_string());
    version.unwrap_or("rustc of an unknown version".into())
}
