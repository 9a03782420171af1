//! Links the portal's library, which `make lib` has made.

use std::path::Path;

fn main() {
    let library = Path::new(env!("CARGO_MANIFEST_DIR")).join("../../build/lib");
    println!("cargo:rustc-link-search=native={}", library.display());
    println!("cargo:rustc-link-lib=static=portal");
    println!("cargo:rerun-if-changed={}", library.join("libportal.a").display());
}
