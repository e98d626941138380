//! Links the C files, which bench/run compiles.
fn main() {
    println!("cargo:rustc-link-search=native={}/target/c", env!("CARGO_MANIFEST_DIR"));
    println!("cargo:rustc-link-lib=static=byhand");
    println!("cargo:rustc-link-lib=m");
    println!("cargo:rerun-if-changed=target/c/libbyhand.a");
}
