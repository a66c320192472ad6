//! Links the static library `libxkbrules.a` from the folder named by
//! XKBRULES_LIB, or else from `../../target/staticlib` beside this package.

use std::env;
use std::path::PathBuf;

fn main() {
    let folder = match env::var_os("XKBRULES_LIB") {
        Some(folder) => PathBuf::from(folder),
        None => PathBuf::from(env::var_os("CARGO_MANIFEST_DIR").expect("manifest folder"))
            .join("../../target/staticlib"),
    };
    let library = folder.join("libxkbrules.a");
    // Behind the standard library, whose panic handler stands where the static
    // library brings its own.
    println!("cargo:rustc-link-arg={}", library.display());
    println!("cargo:rustc-link-arg=-Wl,--allow-multiple-definition");
    println!("cargo:rerun-if-env-changed=XKBRULES_LIB");
    println!("cargo:rerun-if-changed={}", library.display());
}
