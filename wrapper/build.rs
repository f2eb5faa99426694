//! Links the archive of the proved functions: that of this repository, which tools/build-archive builds, or the one in the folder that DRUNQUILL_ARCHIVE
//! names, by that name or as ./install calls it.

use std::env;
use std::path::PathBuf;

fn main() {
    println!("cargo:rerun-if-env-changed=DRUNQUILL_ARCHIVE");
    let folder = match env::var_os("DRUNQUILL_ARCHIVE") {
        Some(folder) => PathBuf::from(folder),
        None => {
            PathBuf::from(env::var_os("CARGO_MANIFEST_DIR").expect("set by cargo")).join("../crates/drunquill_c/out")
        }
    };
    let archive = |name: &str| folder.join(format!("lib{name}.a"));
    let name = ["drunquill_c", "drunquill"].into_iter().find(|name| archive(name).exists());
    let name =
        name.unwrap_or_else(|| panic!("there is no archive in {}; tools/build-archive builds it", folder.display()));
    println!("cargo:rerun-if-changed={}", archive(name).display());
    println!("cargo:rustc-link-search=native={}", folder.display());
    println!("cargo:rustc-link-lib=static={name}");
}
