//! Makes the crate compile the reference's files, unchanged, from the folder that `DELTA_NULL_SRC` names.
//!
//! It writes `modules.rs`, a list of module declarations, into the output folder. The intermediate representation's
//! `mod.rs` declares files that are not published; so it and `stmt.rs` are put, byte for byte, into the output folder
//! next to the stubs of those files. If `DELTA_NULL_LIB` names a static library, it is linked as the product.

use std::{
    env, fs,
    path::{Path, PathBuf},
};

fn main() {
    println!("cargo:rerun-if-env-changed=DELTA_NULL_SRC");
    println!("cargo:rerun-if-changed=build.rs");
    println!("cargo:rerun-if-changed=stubs");

    let source = env::var("DELTA_NULL_SRC")
        .expect("set DELTA_NULL_SRC to the reference's folder, the one that holds lang/lib/frontend/src/type_check.rs");
    let source = fs::canonicalize(source).expect("DELTA_NULL_SRC names no folder");
    let package = PathBuf::from(env::var("CARGO_MANIFEST_DIR").unwrap());
    let out = PathBuf::from(env::var("OUT_DIR").unwrap());

    let backend = source.join("lang/lib/backend/src/ir");
    let ir = out.join("ir");
    fs::create_dir_all(&ir).unwrap();
    for name in ["mod.rs", "stmt.rs"] {
        put(&backend.join(name), &ir.join(name));
    }
    for name in ["builder.rs", "printer.rs", "util.rs"] {
        put(&package.join("stubs").join(name), &ir.join(name));
    }

    let frontend = source.join("lang/lib/frontend/src");
    let mut text = String::new();
    text += &module("ir", &ir.join("mod.rs"));
    for name in ["fallible", "node", "source", "util"] {
        text += &module(name, &frontend.join(name).with_extension("rs"));
    }
    // The checker is included rather than declared by path, so that `inside` can be its child and see private items.
    text += &format!(
        "#[allow(warnings)] pub mod type_check {{ include!({:?});\n#[path = {:?}] pub mod inside; }}\n",
        watched(&frontend.join("type_check.rs")),
        package.join("src/inside.rs"),
    );
    fs::write(out.join("modules.rs"), text).unwrap();
    link_product();
}

/// Links the static library that `DELTA_NULL_LIB` names, if it is set: the checker under test.
fn link_product() {
    println!("cargo:rerun-if-env-changed=DELTA_NULL_LIB");
    println!("cargo:rustc-check-cfg=cfg(linked)");
    let Ok(library) = env::var("DELTA_NULL_LIB") else { return };
    let library = fs::canonicalize(library).expect("DELTA_NULL_LIB names no file");
    let name = library.file_stem().unwrap().to_str().unwrap().strip_prefix("lib").expect("a file libNAME.a");
    println!("cargo:rustc-link-search=native={}", watched(&library).parent().unwrap().display());
    println!("cargo:rustc-link-lib=static={name}");
    println!("cargo:rustc-cfg=linked");
}

/// The declaration of one reference file as a module of the crate.
fn module(name: &str, path: &Path) -> String {
    format!("#[allow(warnings)] #[path = {:?}] pub mod {name};\n", watched(path))
}

/// Copies a file if its bytes changed.
fn put(from: &Path, to: &Path) {
    let bytes = fs::read(watched(from)).unwrap_or_else(|e| panic!("{}: {e}", from.display()));
    if fs::read(to).ok().as_ref() != Some(&bytes) {
        fs::write(to, bytes).unwrap();
    }
}

/// The path, after telling cargo to build again when that file changes.
fn watched(path: &Path) -> &Path {
    println!("cargo:rerun-if-changed={}", path.display());
    path
}
