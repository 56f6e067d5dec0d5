//! Finds and links SuiteSparse:GraphBLAS, the Debian package libgraphblas-dev.
//!
//! Where `GRAPHBLAS_LIB_DIR` names a folder, the library there is linked; to run, `LD_LIBRARY_PATH` names it too.

use std::env;
use std::fs;
use std::path::{Path, PathBuf};
use std::process::exit;

const LIBRARY: &str = "libgraphblas.so";

fn main() {
    println!("cargo:rerun-if-env-changed=GRAPHBLAS_LIB_DIR");
    println!("cargo:rerun-if-changed=build.rs");
    let Some(folder) = folders().into_iter().find(|folder| folder.join(LIBRARY).is_file()) else {
        eprintln!("{LIBRARY} is not there: SuiteSparse:GraphBLAS is needed, the Debian package libgraphblas-dev.");
        eprintln!("To install it: apt-get install libgraphblas-dev");
        eprintln!("Where it is in a folder of its own, GRAPHBLAS_LIB_DIR and LD_LIBRARY_PATH name that folder.");
        exit(1);
    };
    println!("cargo:rerun-if-changed={}", folder.join(LIBRARY).display());
    println!("cargo:rustc-link-search=native={}", folder.display());
    println!("cargo:rustc-link-lib=dylib=graphblas");
}

/// The folders that may have the library: the one that is named, or those of the system.
fn folders() -> Vec<PathBuf> {
    if let Some(folder) = env::var_os("GRAPHBLAS_LIB_DIR") {
        return vec![PathBuf::from(folder)];
    }
    let mut folders: Vec<PathBuf> = ["/usr/local/lib", "/usr/lib64", "/usr/lib"].map(PathBuf::from).into();
    folders.extend(inner_folders(Path::new("/usr/lib")));
    folders
}

fn inner_folders(folder: &Path) -> Vec<PathBuf> {
    let Ok(entries) = fs::read_dir(folder) else {
        return Vec::new();
    };
    let mut paths: Vec<PathBuf> = entries.flatten().map(|entry| entry.path()).collect();
    paths.sort();
    paths
}
