//! Compiles the plain loops of `plain/`, one in Rust and one in C, with all that makes vector instructions of a loop
//! turned off: what the port is timed against has none, whatever the compiler. Where no C compiler is at hand, a line
//! says so.
use std::env::var;
use std::path::{Path, PathBuf};
use std::process::Command;

const RUST: [&str; 7] = [
    "--edition=2021",
    "--emit=obj",
    "-Copt-level=3",
    "-Cpanic=abort",
    "-Cno-vectorize-loops",
    "-Cno-vectorize-slp",
    "-Cdebug-assertions=off",
];
const C: [&str; 4] = [
    "-c",
    "-O3",
    "-fno-tree-vectorize",
    "-fno-tree-slp-vectorize",
];

fn main() {
    println!("cargo:rerun-if-changed=plain");
    println!("cargo:rerun-if-env-changed=CC");
    println!("cargo:rustc-check-cfg=cfg(plain_c)");
    let folder = PathBuf::from(var("OUT_DIR").expect("cargo names it"));
    let rustc = var("RUSTC").expect("cargo names it");
    let rust = folder.join("plain_rust.o");
    assert!(
        compiled(&rustc, &RUST, "plain/plain.rs", &rust),
        "the plain Rust loop does not compile"
    );
    let cc = var("CC").unwrap_or_else(|_| "cc".into());
    let c = folder.join("plain_c.o");
    match compiled(&cc, &C, "plain/plain.c", &c) {
        true => println!("cargo:rustc-cfg=plain_c"),
        false => println!("cargo:warning={cc} compiles no C, the plain C loop is left out"),
    }
}

/// Whether the compiler makes this object of that file. The program is then linked with it.
fn compiled(compiler: &str, options: &[&str], file: &str, object: &Path) -> bool {
    let mut command = Command::new(compiler);
    command.args(options).arg(file).arg("-o").arg(object);
    let done = command.status().is_ok_and(|status| status.success());
    if done {
        println!("cargo:rustc-link-arg-bins={}", object.display());
    }
    done
}
