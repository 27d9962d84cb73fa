//! Links the static library that SHADER_READER_LIBRARY names, a file `libshader_reader.a`; and where
//! SHADER_READER_BEFORE names one, an earlier library whose exports have `before_` before their names.

use std::{env, path::Path};

fn link(name: &str) -> bool {
    println!("cargo:rerun-if-env-changed={name}");
    let Ok(library) = env::var(name) else {
        return false;
    };
    let library = Path::new(&library);
    let stem = library.file_stem().unwrap().to_str().unwrap();
    println!("cargo:rerun-if-changed={}", library.display());
    println!("cargo:rustc-link-search=native={}", library.parent().unwrap().display());
    println!("cargo:rustc-link-lib=static={}", stem.strip_prefix("lib").unwrap());
    true
}

fn main() {
    println!("cargo:rustc-check-cfg=cfg(before)");
    assert!(link("SHADER_READER_LIBRARY"), "SHADER_READER_LIBRARY");
    if link("SHADER_READER_BEFORE") {
        println!("cargo:rustc-cfg=before");
    }
}
