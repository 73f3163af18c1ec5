//! Tells where `make lib` puts the archive, which is x86-64.

use std::{env, path::Path};

fn main() {
    let target = env::var("CARGO_CFG_TARGET_ARCH").expect("cargo sets it");
    if target != "x86_64" {
        // one sentence, where a linker would take many
        println!("cargo::error=the archive is x86-64, and this build is for {target}: model/compare/run.sh builds for x86-64");
    }
    let here = env::var("CARGO_MANIFEST_DIR").expect("cargo sets it");
    let archive = Path::new(&here).join("../../target/staticlib");
    println!("cargo:rustc-link-search=native={}", archive.display());
    println!("cargo:rerun-if-changed={}", archive.join("libservicebough.a").display());
}
