//! Links the proved library. `BTX_LIBRARY` names the folder of `libbtx_c.a`; by default that is the crate's own, `crates/btx_c/out`.
//! `liblibc_c.a`, which asks C for memory, stands beside it, or in the kit.

use std::env;
use std::path::{Path, PathBuf};

/// The folder of the proved library.
fn library_folder() -> PathBuf {
    match env::var_os("BTX_LIBRARY") {
        Some(folder) if !folder.is_empty() => PathBuf::from(folder),
        _ => Path::new(&env::var_os("CARGO_MANIFEST_DIR").unwrap_or_default()).join("../crates/btx_c/out"),
    }
}

/// The folder of the kit's libraries for C: the program `rt` stands in the kit's folder `bin`.
fn kit_folder() -> Option<PathBuf> {
    let path = env::var_os("PATH")?;
    let program = env::split_paths(&path).map(|folder| folder.join("rt")).find(|program| program.is_file())?;
    Some(program.canonicalize().ok()?.parent()?.parent()?.join("c"))
}

fn main() {
    println!("cargo:rerun-if-env-changed=BTX_LIBRARY");
    let library = library_folder();
    let heap = [Some(library.clone()), kit_folder()].into_iter().flatten().find(|it| it.join("liblibc_c.a").is_file());
    println!("cargo:rerun-if-changed={}", library.join("libbtx_c.a").display());
    println!("cargo:rustc-link-search=native={}", library.display());
    if let Some(heap) = heap {
        println!("cargo:rustc-link-search=native={}", heap.display());
    }
    println!("cargo:rustc-link-lib=static=btx_c");
    println!("cargo:rustc-link-lib=static=libc_c");
}
