//! Links liblisp_registration.a from the folder that `LISP_REGISTRATION_LIB_DIR` names, or else from the repository's `out`.

use std::env;
use std::path::{Path, PathBuf};

const FOLDER: &str = "LISP_REGISTRATION_LIB_DIR";
const ARCHIVE: &str = "liblisp_registration.a";

fn main() {
    let folder = match env::var_os(FOLDER) {
        Some(folder) => PathBuf::from(folder),
        None => Path::new(env!("CARGO_MANIFEST_DIR")).join("../../../out"),
    };
    let archive = folder.join(ARCHIVE);
    println!("cargo:rerun-if-env-changed={FOLDER}");
    println!("cargo:rerun-if-changed={}", archive.display());
    assert!(
        archive.is_file(),
        "no {ARCHIVE} in {}: build it, or name its folder (a whole path) in {FOLDER}",
        folder.display()
    );
    println!("cargo:rustc-link-search=native={}", folder.display());
    println!("cargo:rustc-link-lib=static=lisp_registration");
}
