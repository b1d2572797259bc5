//! Names libzagalume.a to what links these calls: that of the folder that ZAGALUME_LIB_DIR names, or else of target/native of the repository, where tools/library leaves it.
//! Only linking needs it, so this never fails: where it is not there, the linker is asked for a library whose name says what is to be done.

use std::env;
use std::path::{Path, PathBuf};

fn main() {
    let named = env::var_os("ZAGALUME_LIB_DIR").filter(|named| !named.is_empty());
    let missing = match named {
        Some(_) => "zagalume is not in the folder that ZAGALUME_LIB_DIR names",
        None => "zagalume is not made yet (run tools/library)",
    };
    let own = || Path::new(env!("CARGO_MANIFEST_DIR")).join("../../target/native");
    let folder = named.map_or_else(own, PathBuf::from);
    let archive = folder.join("libzagalume.a");
    println!("cargo:rerun-if-env-changed=ZAGALUME_LIB_DIR");
    println!("cargo:rerun-if-changed={}", archive.display());
    println!("cargo:rustc-link-search=native={}", folder.display());
    println!("cargo:rustc-link-lib=static:-bundle={}", if archive.is_file() { "zagalume" } else { missing });
}
