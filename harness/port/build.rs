//! Links the port's static library: the file that SICKLEPHLOX_LIB names, or what `harness/made.sh run`
//! makes below the project's root.
use std::path::PathBuf;

fn main() {
    println!("cargo:rerun-if-env-changed=SICKLEPHLOX_LIB");
    let library = match std::env::var_os("SICKLEPHLOX_LIB") {
        Some(path) => PathBuf::from(path),
        None => PathBuf::from(env!("CARGO_MANIFEST_DIR")).join("../../target/staticlib/librun.a"),
    };
    println!("cargo:rerun-if-changed={}", library.display());
    let library = library.canonicalize().unwrap_or_else(|e| {
        panic!("the port's library {} is not there: {e}", library.display());
    });
    let folder = library.parent().expect("a file lies in a folder");
    let stem = library.file_stem().and_then(|name| name.to_str());
    let name = stem.and_then(|name| name.strip_prefix("lib"));
    let name = name.expect("the library is called libNAME.a");
    println!("cargo:rustc-link-search=native={}", folder.display());
    println!("cargo:rustc-link-lib=static={name}");
}
