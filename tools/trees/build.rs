//! Links the static library that `tools/staticlib start_values` writes.

use std::env;
use std::path::PathBuf;

fn main() {
    let package = PathBuf::from(env::var("CARGO_MANIFEST_DIR").expect("cargo sets it"));
    let folder = package.join("../../target/staticlib");
    println!("cargo:rustc-link-search=native={}", folder.display());
    println!("cargo:rustc-link-lib=static=start_values");
    println!(
        "cargo:rerun-if-changed={}",
        folder.join("libstart_values.a").display()
    );
}
