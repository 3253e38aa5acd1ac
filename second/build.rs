//! Links the proved static library: folder from WAXWINGRACK_LIB, else ../target/lib.

use std::env;
use std::path::{Path, PathBuf};

const FILE: &str = "libwaxwingrack.a";

fn main() {
    println!("cargo::rerun-if-env-changed=WAXWINGRACK_LIB");
    if env::var_os("CARGO_FEATURE_PROVED").is_some() {
        link(&folder());
    }
}

fn folder() -> PathBuf {
    match env::var_os("WAXWINGRACK_LIB") {
        Some(folder) => PathBuf::from(folder),
        None => Path::new(&env::var_os("CARGO_MANIFEST_DIR").unwrap()).join("../target/lib"),
    }
}

fn link(folder: &Path) {
    let file = folder.join(FILE);
    // a new library must be linked again
    println!("cargo::rerun-if-changed={}", file.display());
    if !file.exists() {
        println!(
            "cargo::error=no {FILE} in {}: build it, set WAXWINGRACK_LIB, or use --no-default-features",
            folder.display()
        );
    }
    println!("cargo::rustc-link-search=native={}", folder.display());
    println!("cargo::rustc-link-lib=static=waxwingrack");
}
