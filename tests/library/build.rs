//! Links the archive that `rt lib` writes in crates/controller.

use std::path::Path;

fn main() {
    let here = std::env::var("CARGO_MANIFEST_DIR").expect("cargo names the package's folder");
    let archives = Path::new(&here).join("../../crates/controller/out");
    println!("cargo:rustc-link-search=native={}", archives.display());
    println!("cargo:rustc-link-lib=static=controller");
    println!(
        "cargo:rerun-if-changed={}/libcontroller.a",
        archives.display()
    );
}
