//! Links the proved library's archive, `libseambeacon.a`: from the folder that SEAMBEACON_ARCHIVE names, or from the project's
//! `crates/seambeacon/out`, where `rt lib` in `crates/seambeacon` puts it. Documentation, checks and lints need no archive, so its lack is a
//! warning here; what is linked without it is then refused by the compiler.

use std::env;
use std::path::PathBuf;

const VARIABLE: &str = "SEAMBEACON_ARCHIVE";
const ARCHIVE: &str = "libseambeacon.a";

fn main() {
    let machine = env::var("CARGO_CFG_TARGET_ARCH").unwrap_or_default();
    let folder = match env::var_os(VARIABLE) {
        Some(named) => PathBuf::from(named),
        None => PathBuf::from(env::var_os("CARGO_MANIFEST_DIR").unwrap_or_default()).join("../../crates/seambeacon/out"),
    };
    let archive = folder.join(ARCHIVE);
    println!("cargo:rerun-if-env-changed={VARIABLE}");
    println!("cargo:rerun-if-changed={}", archive.display());
    if machine != "x86_64" {
        println!("cargo:warning=nothing can be linked: the library is x86-64 code, and this build is for {machine}");
    } else if !archive.is_file() {
        println!(
            "cargo:warning=nothing can be linked: there is no {}: run `rt lib` in the project's crates/seambeacon, or name the archive's folder in {VARIABLE}",
            archive.display()
        );
    } else {
        println!("cargo:rustc-link-search=native={}", folder.display());
    }
    println!("cargo:rustc-link-lib=static=seambeacon");
}
