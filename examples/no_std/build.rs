//! Rust's std would have the C library linked, which here is asked for by name:
//! `main` and `puts` are C's.

fn main() {
    println!("cargo:rerun-if-changed=build.rs");
    println!("cargo:rustc-link-lib=c");
}
