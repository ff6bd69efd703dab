//! Names libczi.a to the linker: in the folder that CZI_LIB_DIR says, or where
//! `host/library` writes it.

use std::path::PathBuf;

fn main() {
    println!("cargo::rerun-if-env-changed=CZI_LIB_DIR");
    let folder = match std::env::var_os("CZI_LIB_DIR") {
        Some(folder) => PathBuf::from(folder),
        None => {
            let manifest = std::env::var_os("CARGO_MANIFEST_DIR").expect("cargo sets it");
            PathBuf::from(manifest).join("../../target/staticlib")
        }
    };
    let library = folder.join("libczi.a");
    println!("cargo::rerun-if-changed={}", library.display());
    if !library.is_file() {
        let library = library.display();
        println!("cargo::error={library} is missing: run `host/library`, or set CZI_LIB_DIR");
        return;
    }
    println!("cargo::rustc-link-search=native={}", folder.display());
    println!("cargo::rustc-link-lib=static=czi");
}
