//! Links the library that `hosts/build host` writes.

use std::path::Path;

fn main() {
    let folder = Path::new(env!("CARGO_MANIFEST_DIR")).join("../target/staticlib");
    let library = folder.join("libhost.a");
    if !library.is_file() {
        println!("cargo::error=target/staticlib/libhost.a is not there: run `hosts/build host`, or bench/compare, which does");
    }
    println!("cargo::rerun-if-changed={}", library.display());
    println!("cargo::rustc-link-search=native={}", folder.display());
    println!("cargo::rustc-link-lib=static=host");
}
