//! Links the archive that `scripts/library` writes, or the one in the folder that TASKGRAPH_LIB_DIR names. Without
//! it `cargo check`, `cargo clippy` and `cargo doc` still run.

use std::{
    env,
    path::{Path, PathBuf},
};

fn main() {
    println!("cargo:rerun-if-env-changed=TASKGRAPH_LIB_DIR");
    let folder = env::var_os("TASKGRAPH_LIB_DIR").map_or_else(in_the_repository, PathBuf::from);
    let archive = folder.join("libtaskgraph.a");
    println!("cargo:rerun-if-changed={}", archive.display());
    println!("cargo:rustc-link-search=native={}", folder.display());
    println!("cargo:rustc-link-lib=static=taskgraph");
    if !archive.is_file() {
        println!("cargo:warning={} is missing, so nothing links", archive.display());
        println!("cargo:warning=`scripts/library`, in the repository of taskgraph, writes it");
    }
}

fn in_the_repository() -> PathBuf {
    let package = env::var_os("CARGO_MANIFEST_DIR").expect("cargo sets CARGO_MANIFEST_DIR");
    Path::new(&package).join("../target/staticlib")
}
