//! Links the proved library, which `compare/archive` writes.
use std::{env, path::PathBuf};

fn main() {
    let root = PathBuf::from(env::var("CARGO_MANIFEST_DIR").unwrap()).join("..");
    let folder = root.join("crates/spot_c/out");
    println!("cargo:rerun-if-changed={}", folder.join("libspot_c.a").display());
    println!("cargo:rustc-link-search=native={}", folder.display());
    println!("cargo:rustc-link-lib=static=spot_c");
}
