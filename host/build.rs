// Links libboundary.a, which `host/archive` puts into target/staticlib at the project's root: it is the file out/libboundary_c.a that `rt lib` writes in
// crates/boundary_c. SIGATUDA_ARCHIVE names another folder that holds it.
use std::{env, path::PathBuf};

fn main() {
    let here = PathBuf::from(env::var("CARGO_MANIFEST_DIR").unwrap());
    let folder = env::var("SIGATUDA_ARCHIVE").map_or_else(|_| here.join("../target/staticlib"), PathBuf::from);
    let archive = folder.join("libboundary.a");
    println!("cargo:rerun-if-env-changed=SIGATUDA_ARCHIVE");
    println!("cargo:rerun-if-changed={}", archive.display());
    assert!(archive.is_file(), "{} is missing: run `host/archive` at the project's root", archive.display());
    assert_eq!(env::var("CARGO_CFG_TARGET_ARCH").unwrap(), "x86_64", "the archive holds x86-64 code");
    println!("cargo:rustc-link-search=native={}", folder.display());
    println!("cargo:rustc-link-lib=static=boundary");
}
