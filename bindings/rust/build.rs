//! Links the static library of the proved model: out of the folder that the
//! environment names, else where `bindings/library` writes it.

use std::env;
use std::path::{Path, PathBuf};

/// Names another folder that holds the library.
const VARIABLE: &str = "NICOISETARN_LIB_DIR";

/// The folder to look in.
fn folder() -> PathBuf {
    match env::var_os(VARIABLE) {
        Some(named) => named.into(),
        None => {
            let crate_folder = env::var_os("CARGO_MANIFEST_DIR").unwrap_or_default();
            Path::new(&crate_folder).join("../../target/staticlib")
        }
    }
}

fn main() {
    let folder = folder();
    let library = folder.join("libnicoisetarn.a");
    println!("cargo:rerun-if-env-changed={VARIABLE}");
    println!("cargo:rerun-if-changed={}", library.display());
    if !library.is_file() {
        let wanted = format!("make it with `bindings/library`, or name its folder in {VARIABLE}");
        panic!("{} is not there: {wanted}", library.display());
    }
    println!("cargo:rustc-link-search=native={}", folder.display());
    println!("cargo:rustc-link-lib=static=nicoisetarn");
}
