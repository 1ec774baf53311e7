//! Links the archives that `rt lib` wrote in the folders of `c_api` and `line_probe`.

use std::path::Path;

fn main() {
    let here = std::env::var("CARGO_MANIFEST_DIR").expect("cargo says where this crate is");
    for archive in ["c_api", "line_probe"] {
        let folder = Path::new(&here).join(format!("../../crates/{archive}/out"));
        println!("cargo:rustc-link-search=native={}", folder.display());
        println!(
            "cargo:rerun-if-changed={}",
            folder.join(format!("lib{archive}.a")).display()
        );
        println!("cargo:rustc-link-lib=static={archive}");
    }
}
