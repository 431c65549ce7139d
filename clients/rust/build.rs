//! Finds the library. VOSDRIENG_LIBRARY names a folder that `./vosdrieng library` made, or a file in it;
//! without it the folder out/library of the repository is taken, and without that what the linker finds.
use std::env;
use std::path::PathBuf;

/// The folder that a path names, or that a file stands in.
fn folder_of(path: PathBuf) -> PathBuf {
    if path.is_file() { path.parent().unwrap_or(&path).to_path_buf() } else { path }
}

fn main() {
    println!("cargo:rerun-if-env-changed=VOSDRIENG_LIBRARY");
    println!("cargo:rustc-link-lib=static=vosdrieng");
    let here = env::var_os("CARGO_MANIFEST_DIR").unwrap_or_default();
    let folder = env::var_os("VOSDRIENG_LIBRARY")
        .map(|named| folder_of(PathBuf::from(named)))
        .unwrap_or_else(|| PathBuf::from(here).join("../../out/library"));
    if folder.join("libvosdrieng.a").exists() {
        println!("cargo:rerun-if-changed={}", folder.join("libvosdrieng.a").display());
        println!("cargo:rustc-link-search=native={}", folder.display());
    }
}
