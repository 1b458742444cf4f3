//! Links `libexports.a`, which `rt lib` writes in crates/exports. `DELTA_NULL_LIB` names its folder if it is another.
use std::env;
use std::path::Path;

fn main() {
    println!("cargo:rerun-if-env-changed=DELTA_NULL_LIB");
    let here = env::var("CARGO_MANIFEST_DIR").expect("cargo says where the package is");
    let folder = match env::var("DELTA_NULL_LIB") {
        Ok(folder) => folder,
        Err(_) => Path::new(&here).join("../../crates/exports/out").display().to_string(),
    };
    println!("cargo:rerun-if-changed={folder}/libexports.a");
    println!("cargo:rustc-link-search=native={folder}");
    println!("cargo:rustc-link-lib=static=exports");
}
