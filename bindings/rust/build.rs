//! Links the checker's static library: the repository's own, or the one in the folder that
//! CHECKER_LIBRARY names.

use std::env;
use std::path::{Path, PathBuf};

fn main() {
    let package = env::var_os("CARGO_MANIFEST_DIR").expect("cargo sets the package's folder");
    let own = Path::new(&package).join("../../target/staticlib");
    let folder = env::var_os("CHECKER_LIBRARY").map_or(own, PathBuf::from);
    let library = folder.join("libchecker.a");
    assert!(
        library.is_file(),
        "{} is not there: run `tests/library`, or name its folder by its whole path in CHECKER_LIBRARY",
        library.display()
    );
    println!("cargo:rerun-if-changed=build.rs");
    println!("cargo:rerun-if-env-changed=CHECKER_LIBRARY");
    println!("cargo:rerun-if-changed={}", library.display());
    println!("cargo:rustc-link-search=native={}", folder.display());
    println!("cargo:rustc-link-lib=static=checker");
}
