//! Links the library that `./library` made: in the folder that CANTUVESH_LIBRARY names, or in the checkout's
//! target/library.

use std::env;
use std::fs;
use std::path::{Path, PathBuf};

fn main() {
    println!("cargo::rerun-if-changed=build.rs");
    println!("cargo::rerun-if-env-changed=CANTUVESH_LIBRARY");
    let named = env::var_os("CANTUVESH_LIBRARY").filter(|name| !name.is_empty()).map(PathBuf::from);
    let folder = named.unwrap_or_else(|| Path::new(env!("CARGO_MANIFEST_DIR")).join("../../target/library"));
    let archive = folder.join("lib/libcantuvesh.a");
    println!("cargo::rerun-if-changed={}", archive.display());
    if folder.is_relative() {
        // Cargo runs this in the package's folder; whoever named it meant another.
        println!("cargo::error=CANTUVESH_LIBRARY must be an absolute path, and is {}", folder.display());
    } else if !archive.is_file() {
        let missing = archive.display();
        println!(
            "cargo::error={missing} is not there: run ./library, or name its folder in CANTUVESH_LIBRARY"
        );
    } else if !is_own_version(&folder) {
        // Another version's call may be another, which the linker does not see.
        let version = env!("CARGO_PKG_VERSION");
        println!("cargo::error={} is not of version {version}: run ./library again", archive.display());
    }
    if env::var("CARGO_CFG_TARGET_ARCH").is_ok_and(|target| target != "x86_64") {
        println!("cargo::warning=the library is for x86-64, and nothing for another processor links with it");
    }
    println!("cargo::rustc-link-search=native={}", folder.join("lib").display());
    println!("cargo::rustc-link-lib=static=cantuvesh");
}

fn is_own_version(folder: &Path) -> bool {
    let described = fs::read_to_string(folder.join("lib/pkgconfig/cantuvesh.pc")).unwrap_or_default();
    described.lines().any(|line| line == concat!("Version: ", env!("CARGO_PKG_VERSION")))
}
