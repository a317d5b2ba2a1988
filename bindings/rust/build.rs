//! Links libres_table_config.a: the one in the folder that RES_TABLE_CONFIG_LIB_DIR names, or else the one that `rt lib` in crates/res_table_config proves
//! and writes. The archive is for x86-64 Linux; for another target nothing is linked, which is enough to check and to document.

use std::path::{Path, PathBuf};
use std::process::Command;
use std::{env, fs};

fn main() {
    println!("cargo:rerun-if-env-changed=RES_TABLE_CONFIG_LIB_DIR");
    let target = ["CARGO_CFG_TARGET_ARCH", "CARGO_CFG_TARGET_OS"].map(|word| env::var(word).unwrap_or_default());
    if target != ["x86_64", "linux"] {
        println!("cargo:warning=libres_table_config.a is for x86-64 Linux: nothing is linked for this target");
        return;
    }
    let folder = env::var_os("RES_TABLE_CONFIG_LIB_DIR").map_or_else(proved, PathBuf::from);
    println!("cargo:rerun-if-changed={}", folder.join("libres_table_config.a").display());
    println!("cargo:rustc-link-search=native={}", folder.display());
    println!("cargo:rustc-link-lib=static=res_table_config");
}

/// Has `rt` write the archive, and gives its folder.
fn proved() -> PathBuf {
    let own = env::var_os("CARGO_MANIFEST_DIR").expect("cargo sets CARGO_MANIFEST_DIR");
    let root = fs::canonicalize(Path::new(&own).join("../..")).expect("the project's root is two folders up");
    println!("cargo:rerun-if-changed={}", root.join("crates.txt").display());
    // a crate's folder out/ is what rt made, and no part of it
    for entry in fs::read_dir(root.join("crates")).expect("crates/ can be read") {
        let folder = entry.expect("crates/ can be read").path();
        for part in ["src", "specs", "proofs"].map(|part| folder.join(part)) {
            if part.exists() {
                println!("cargo:rerun-if-changed={}", part.display());
            }
        }
    }
    let folder = root.join("crates/res_table_config");
    let made = Command::new("rt").arg("lib").current_dir(&folder).output();
    let made = made.expect("rt is not on the path: install the Rattle kit, or set RES_TABLE_CONFIG_LIB_DIR");
    if !made.status.success() {
        let said = [made.stdout, made.stderr].concat();
        panic!("rt lib in crates/res_table_config: {}", String::from_utf8_lossy(&said));
    }
    folder.join("out")
}
