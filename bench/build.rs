//! Links the product's static library, that of the loop over single bytes and, where `bench/run` was
//! given one, another version of the first; `bench/run` has `rt` write the first two.

use std::env;
use std::path::Path;

fn main() {
    println!("cargo:rustc-check-cfg=cfg(before)");
    println!("cargo:rerun-if-env-changed=BENCH_BEFORE");
    let package = env::var("CARGO_MANIFEST_DIR").expect("cargo names the package's folder");
    let top = Path::new(&package).join("..");
    let mut libraries = vec![
        ("capi", top.join("crates/capi/out")),
        ("byte_loop", top.join("crates/byte_loop/out")),
    ];
    if env::var_os("BENCH_BEFORE").is_some() {
        libraries.push(("before", top.join("target")));
        println!("cargo:rustc-cfg=before");
    }
    for (name, folder) in libraries {
        println!("cargo:rustc-link-search=native={}", folder.display());
        println!("cargo:rustc-link-lib=static={name}");
        let archive = folder.join(format!("lib{name}.a"));
        println!("cargo:rerun-if-changed={}", archive.display());
    }
}
