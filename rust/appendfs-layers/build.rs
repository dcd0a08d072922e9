//! Finds the static library, or has it built: the folder that APPENDFS_LAYERS_LIB names; else crates/ffi/out of the repository that
//! this crate stands in, where `rt lib` in crates/ffi writes it if it isn't there yet.

use std::path::{Path, PathBuf};
use std::process::{Command, exit};

const LIBRARY: &str = "libffi.a";

fn main() {
    println!("cargo:rerun-if-env-changed=APPENDFS_LAYERS_LIB");
    println!("cargo:rerun-if-changed=build.rs");
    let folder = match std::env::var_os("APPENDFS_LAYERS_LIB") {
        Some(folder) => given(PathBuf::from(folder)),
        None => ours(),
    };
    println!("cargo:rerun-if-changed={}", folder.join(LIBRARY).display());
    println!("cargo:rustc-link-search=native={}", folder.display());
    println!("cargo:rustc-link-lib=static=ffi");
}

fn given(folder: PathBuf) -> PathBuf {
    if !folder.join(LIBRARY).is_file() {
        fail(&format!("APPENDFS_LAYERS_LIB names {}, which has no {LIBRARY}", folder.display()));
    }
    folder.canonicalize().unwrap_or(folder)
}

fn ours() -> PathBuf {
    let here = PathBuf::from(std::env::var_os("CARGO_MANIFEST_DIR").expect("cargo sets CARGO_MANIFEST_DIR"));
    let root = here.join("../..");
    let folder = root.join("crates/ffi/out");
    if !folder.join(LIBRARY).is_file() {
        build(&root);
    }
    if !folder.join(LIBRARY).is_file() {
        fail(&format!("`rt lib` in crates/ffi wrote no {}", folder.join(LIBRARY).display()));
    }
    folder.canonicalize().unwrap_or(folder)
}

fn build(root: &Path) {
    let ffi = root.join("crates/ffi");
    if !ffi.is_dir() {
        fail(&format!("{} is not the repository with crates/ffi", root.display()));
    }
    match Command::new("rt").arg("lib").current_dir(ffi).output() {
        Ok(done) if done.status.success() => {}
        Ok(done) => fail(&format!(
            "`rt lib` in crates/ffi failed:\n{}{}",
            String::from_utf8_lossy(&done.stdout),
            String::from_utf8_lossy(&done.stderr)
        )),
        Err(error) => fail(&format!("`rt`, of the Rattle kit, can't be run to build {LIBRARY}: {error}")),
    }
}

fn fail(why: &str) -> ! {
    eprintln!("appendfs-layers: {why}");
    eprintln!("appendfs-layers: set APPENDFS_LAYERS_LIB to the folder of {LIBRARY}, or put `rt` on the PATH");
    exit(1);
}
