//! Tells the linker where the library is: in the folder of the environment variable TYPST_SYNTAX_LIB, in `out` of the
//! folder above, or where the system has libraries. A static library is linked where the folder has one.

use std::env;
use std::path::{Path, PathBuf};

fn main() {
    println!("cargo::rerun-if-env-changed=TYPST_SYNTAX_LIB");
    println!("cargo::rerun-if-changed=build.rs");
    let kind = match folder() {
        None => "dylib",
        Some(folder) => {
            println!("cargo::rustc-link-search=native={}", folder.display());
            println!("cargo::rerun-if-changed={}", folder.display());
            let is_static = folder.join("libtypst_syntax.a").exists();
            if is_static { "static" } else { "dylib" }
        }
    };
    println!("cargo::rustc-link-lib={kind}=typst_syntax");
}

/// The folder of the library, unless the linker knows it anyway.
fn folder() -> Option<PathBuf> {
    if let Some(named) = env::var_os("TYPST_SYNTAX_LIB") {
        return Some(named.into());
    }
    let beside = Path::new(&env::var_os("CARGO_MANIFEST_DIR")?).join("../out");
    beside.join("libtypst_syntax.a").exists().then_some(beside)
}
