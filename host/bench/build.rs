//! Names libprobe.a to the linker where `host/library probe` has written it; without it one line is not measured.

use std::path::PathBuf;

fn main() {
    println!("cargo:rerun-if-env-changed=CZI_LIB_DIR");
    println!("cargo:rustc-check-cfg=cfg(probe)");
    let folder = match std::env::var_os("CZI_LIB_DIR") {
        Some(folder) => PathBuf::from(folder),
        None => {
            let manifest = std::env::var_os("CARGO_MANIFEST_DIR").expect("cargo sets it");
            PathBuf::from(manifest).join("../../target/staticlib")
        }
    };
    let library = folder.join("libprobe.a");
    println!("cargo:rerun-if-changed={}", library.display());
    if library.is_file() {
        println!("cargo:rustc-link-search=native={}", folder.display());
        println!("cargo:rustc-link-lib=static=probe");
        println!("cargo:rustc-cfg=probe");
    }
}
