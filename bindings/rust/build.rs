//! Finds the static library, which is for x86-64.
use std::env;
use std::path::PathBuf;
use std::process::exit;

const ARCHIVE: &str = "libexports.a";

fn stop(message: &str) -> ! {
    eprintln!("crossglimmer: {message}");
    exit(1);
}

/// `CROSSGLIMMER_LIB`, or where `bindings/library` writes.
fn folder() -> PathBuf {
    let here = PathBuf::from(env::var_os("CARGO_MANIFEST_DIR").unwrap_or_default());
    env::var_os("CROSSGLIMMER_LIB").map_or_else(|| here.join("../../target/staticlib"), PathBuf::from)
}

fn main() {
    println!("cargo:rerun-if-env-changed=CROSSGLIMMER_LIB");
    let processor = env::var("CARGO_CFG_TARGET_ARCH").unwrap_or_default();
    if processor != "x86_64" {
        stop(&format!("the proved library is for x86-64 and cannot be linked into a program for {processor}"));
    }
    let folder = folder();
    let archive = folder.join(ARCHIVE);
    println!("cargo:rerun-if-changed={}", archive.display());
    if !archive.is_file() {
        stop(&format!(
            "no {ARCHIVE} in {}: make it by `bindings/library`, or set CROSSGLIMMER_LIB to its folder",
            folder.display()
        ));
    }
    println!("cargo:rustc-link-search=native={}", folder.display());
    println!("cargo:rustc-link-lib=static=exports");
}
