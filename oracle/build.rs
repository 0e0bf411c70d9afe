//! Links libedge_index_c.a from the folder EDGE_INDEX_LIB, by default ../target/staticlib.

use std::{env, fs};

fn main() {
    println!("cargo:rerun-if-env-changed=EDGE_INDEX_LIB");
    let here = env::var("CARGO_MANIFEST_DIR").unwrap();
    let folder = env::var("EDGE_INDEX_LIB").unwrap_or(format!("{here}/../target/staticlib"));
    let folder = fs::canonicalize(&folder).unwrap_or_else(|e| panic!("EDGE_INDEX_LIB: {folder}: {e}"));
    let library = folder.join("libedge_index_c.a");
    println!("cargo:rerun-if-changed={}", library.display());
    println!("cargo:rustc-link-search=native={}", folder.display());
    println!("cargo:rustc-link-lib=static=edge_index_c");
    println!("cargo:rustc-env=EDGE_INDEX_LIBRARY={}", library.display());
}
