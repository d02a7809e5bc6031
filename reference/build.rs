//! Links bench and shares with an older library, too, where the feature `before` asks for it.

use std::env;

fn main() {
    println!("cargo::rerun-if-changed=build.rs");
    println!("cargo::rerun-if-env-changed=CANTUVESH_BEFORE");
    if env::var_os("CARGO_FEATURE_BEFORE").is_none() {
        return;
    }
    let Ok(object) = env::var("CANTUVESH_BEFORE") else {
        println!("cargo::error=CANTUVESH_BEFORE must name the object to link, as reference/bench does");
        return;
    };
    println!("cargo::rerun-if-changed={object}");
    for program in ["bench", "shares"] {
        println!("cargo::rustc-link-arg-bin={program}={object}");
    }
}
