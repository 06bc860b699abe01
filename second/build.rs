//! Tells the linker where libsagebutton.a lies: in the folder named by SAGEBUTTON_LIB
//! (an absolute path), or else where the repository builds it.

use std::env;
use std::path::PathBuf;

fn main() {
    let folder = match env::var_os("SAGEBUTTON_LIB") {
        Some(folder) => PathBuf::from(folder),
        None => PathBuf::from(env::var_os("CARGO_MANIFEST_DIR").unwrap()).join("../target/staticlib"),
    };
    println!("cargo:rerun-if-env-changed=SAGEBUTTON_LIB");
    // Without this line a library built anew would not be linked anew.
    println!("cargo:rerun-if-changed={}", folder.join("libsagebutton.a").display());
    println!("cargo:rustc-link-search=native={}", folder.display());
}
