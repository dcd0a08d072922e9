//! Finds the static library: in the folder that APPENDFS_LAYERS_LIB names, else where `rt lib` in crates/ffi leaves it.

use std::path::PathBuf;
use std::{env, fs};

fn main() {
    println!("cargo:rerun-if-env-changed=APPENDFS_LAYERS_LIB");
    let here = PathBuf::from(env::var("CARGO_MANIFEST_DIR").unwrap());
    let folder = env::var("APPENDFS_LAYERS_LIB").map_or(here.join("../../crates/ffi/out"), PathBuf::from);
    let library = folder.join("libffi.a");
    let folder = fs::canonicalize(&folder).ok().filter(|_| library.is_file()).unwrap_or_else(|| {
        panic!(
            "{} is not there: run `rt lib` in crates/ffi, or name the folder that holds libffi.a in \
             APPENDFS_LAYERS_LIB",
            library.display()
        )
    });
    println!("cargo:rerun-if-changed={}", library.display());
    println!("cargo:rustc-link-search=native={}", folder.display());
    println!("cargo:rustc-link-lib=static=ffi");
}
