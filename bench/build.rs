//! Links the archive that `rt lib` wrote in the folder of `host_probe`. The tests have no use for it, so it is not among their
//! binding's.

use std::path::Path;

fn main() {
    let here = std::env::var("CARGO_MANIFEST_DIR").expect("cargo says where this crate is");
    let folder = Path::new(&here).join("../crates/host_probe/out");
    println!("cargo:rustc-link-search=native={}", folder.display());
    println!("cargo:rerun-if-changed={}", folder.join("libhost_probe.a").display());
    println!("cargo:rustc-link-lib=static=host_probe");
}
