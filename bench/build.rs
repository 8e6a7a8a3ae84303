//! Links the archives that `tools/build` wrote of fabric_c and bench_entries.

use std::env;
use std::path::Path;

fn main() {
    let folder = env::var("CARGO_MANIFEST_DIR").expect("cargo names the folder");
    let folder = Path::new(&folder).join("../target/staticlib");
    println!("cargo::rustc-link-search=native={}", folder.display());
    for name in ["fabric_c", "bench_entries"] {
        let archive = folder.join(format!("lib{name}.a"));
        println!("cargo::rustc-link-lib=static={name}");
        println!("cargo::rerun-if-changed={}", archive.display());
    }
}
