//! Links the proved library, which `rt lib` writes in `crates/surfpocket`.

use std::env;
use std::path::Path;

fn main() {
    let package = env::var("CARGO_MANIFEST_DIR").expect("cargo sets it");
    let folder = Path::new(&package).join("../../crates/surfpocket/out");
    println!("cargo:rerun-if-changed={}", folder.join("libsurfpocket.a").display());
    println!("cargo:rustc-link-search=native={}", folder.display());
    println!("cargo:rustc-link-lib=static=surfpocket");
}
