//! Links our library for C: the files that the environment variables EDITIONS_LIB (libeditions_c.a) and CALLS_LIB
//! (libcalls_c.a) name.

use std::path::Path;

fn main() {
    for (variable, file) in [("EDITIONS_LIB", "libeditions_c.a"), ("CALLS_LIB", "libcalls_c.a")] {
        println!("cargo::rerun-if-env-changed={variable}");
        let library = std::env::var(variable).unwrap_or_else(|_| panic!("{variable} names our library for C, {file}"));
        let path = Path::new(&library).canonicalize().unwrap_or_else(|_| panic!("{variable} is no file"));
        println!("cargo::rerun-if-changed={}", path.display());
        println!("cargo::rustc-link-arg-bins={}", path.display());
    }
}
