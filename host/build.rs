//! Links the proved archive, which `make lib` writes, or the one in the folder that VIZTUREL_ARCHIVE names; with the feature `bench_store`
//! also the archive of that crate.

use std::env;
use std::path::{Path, PathBuf};

fn main() {
    let shipped = || Path::new(env!("CARGO_MANIFEST_DIR")).join("../target/lib");
    let folder = env::var_os("VIZTUREL_ARCHIVE").map_or_else(shipped, PathBuf::from);
    let archive = folder.join("libvizturel.a");
    println!("cargo:rerun-if-env-changed=VIZTUREL_ARCHIVE");
    println!("cargo:rerun-if-changed={}", archive.display());
    println!("cargo:rustc-link-search=native={}", folder.display());
    println!("cargo:rustc-link-lib=static=vizturel");
    if env::var_os("CARGO_FEATURE_BENCH_STORE").is_some() {
        let folder = Path::new(env!("CARGO_MANIFEST_DIR")).join("../target/lib");
        println!("cargo:rerun-if-changed={}", folder.join("libbench_store.a").display());
        println!("cargo:rustc-link-search=native={}", folder.display());
        println!("cargo:rustc-link-lib=static=bench_store");
    }
    if !archive.exists() {
        println!("cargo:warning=no {}: write it by 'make lib'", archive.display());
    }
}
