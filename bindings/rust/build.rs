//! Finds the archive of the kernel: the file that `KERNEL_ARCHIVE` names, else the one that `tools/archive` makes.

use std::env;
use std::path::{Path, PathBuf};

/// The environment variable that names the archive by an absolute path; empty is as good as not set.
const NAMED: &str = "KERNEL_ARCHIVE";

/// Where the archive is made, from this package on.
const MADE: &str = "../../target/library/libkernel_c.a";

fn main() {
    println!("cargo:rerun-if-env-changed={NAMED}");
    let named = env::var_os(NAMED).filter(|path| !path.is_empty());
    let named = named.map_or_else(|| PathBuf::from(MADE), PathBuf::from);
    let archive = named.canonicalize().unwrap_or_else(|error| {
        panic!("no archive {}: make it with tools/archive, or set {NAMED} ({error})", named.display())
    });
    let (Some(folder), Some(file)) = (archive.parent(), archive.file_name()) else {
        panic!("{} is no file", archive.display())
    };
    println!("cargo:rerun-if-changed={}", archive.display());
    println!("cargo:rustc-link-search=native={}", folder.display());
    println!("cargo:rustc-link-lib=static:+verbatim={}", Path::new(file).display());
}
