//! Links the archives that `./archive` leaves in the repository's target folder.

use std::path::Path;

fn main() {
    let package = std::env::var("CARGO_MANIFEST_DIR").expect("set by cargo");
    let folder = Path::new(&package).join("../target/staticlib");
    println!("cargo:rustc-link-search=native={}", folder.display());
    for name in ["tongsorrel", "lent", "host"] {
        println!("cargo:rustc-link-lib=static={name}");
        let archive = folder.join(format!("lib{name}.a"));
        println!("cargo:rerun-if-changed={}", archive.display());
    }
}
