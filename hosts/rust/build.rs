//! Finds libshader_reader.a, copies it into OUT_DIR and links it.
use std::env;
use std::fs;
use std::path::{Path, PathBuf};
use std::process::{exit, Command};

const VARIABLE: &str = "SHADER_READER_LIB";
const FILE: &str = "libshader_reader.a";

fn main() {
    println!("cargo:rerun-if-env-changed={VARIABLE}");
    let library = library().unwrap_or_else(|words| fail(&words));
    let out = PathBuf::from(env::var_os("OUT_DIR").expect("cargo sets OUT_DIR"));
    // Written and not copied, so that a file without write permission does not make one here.
    if let Err(error) = fs::read(&library).and_then(|bytes| fs::write(out.join(FILE), bytes)) {
        fail(&format!("{} can't be copied to {}: {error}", library.display(), out.display()));
    }
    println!("cargo:rustc-link-search=native={}", out.display());
    println!("cargo:rustc-link-lib=static=shader_reader");
}

fn fail(words: &str) -> ! {
    eprintln!("shader_reader: {words}");
    exit(1)
}

/// The file that the variable names, or the one that `make library` wrote, or one that is built now.
fn library() -> Result<PathBuf, String> {
    let package = PathBuf::from(env::var_os("CARGO_MANIFEST_DIR").expect("cargo sets CARGO_MANIFEST_DIR"));
    if let Some(named) = env::var_os(VARIABLE).filter(|named| !named.is_empty()) {
        let named = package.join(named);
        rerun_if_changed(&named);
        return if named.is_file() { Ok(named) } else { Err(format!("{VARIABLE}: {} is no file", named.display())) };
    }
    let root = package.ancestors().nth(2).unwrap_or(&package);
    let built = root.join("build").join(FILE);
    if built.is_file() {
        rerun_if_changed(&built);
        return Ok(built);
    }
    prove(root)
}

/// Runs `rt lib` in the folder of the crate `shader_reader_c`.
fn prove(root: &Path) -> Result<PathBuf, String> {
    let crates = root.join("crates");
    let exports = crates.join("shader_reader_c");
    if !exports.is_dir() {
        return Err(format!("there is no library, and no sources of it in {}; {ADVICE}", crates.display()));
    }
    // What `rt` reads, and not what it writes beside it.
    rerun_if_changed(&root.join("crates.txt"));
    for folder in fs::read_dir(&crates).into_iter().flatten().flatten() {
        for part in ["src", "specs", "proofs"].map(|part| folder.path().join(part)) {
            if part.is_dir() {
                rerun_if_changed(&part);
            }
        }
    }
    let status = Command::new("rt").arg("lib").current_dir(&exports).status();
    match status {
        Ok(status) if status.success() => Ok(exports.join("out/libshader_reader_c.a")),
        Ok(status) => Err(format!("`rt lib` failed in {} ({status}); {ADVICE}", exports.display())),
        Err(error) => Err(format!("`rt`, which proves and builds the library, can't be run ({error}); {ADVICE}")),
    }
}

const ADVICE: &str = "set SHADER_READER_LIB to the path of a built libshader_reader.a";

fn rerun_if_changed(path: &Path) {
    println!("cargo:rerun-if-changed={}", path.display());
}
