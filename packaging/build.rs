//! The crate has its library beside its sources.

use std::env;
use std::path::Path;
use std::process::exit;

fn main() {
    let variable = |name| env::var(name).unwrap_or_default();
    let machine = variable("CARGO_CFG_TARGET_ARCH");
    let folder = format!("{}/lib/{machine}", variable("CARGO_MANIFEST_DIR"));
    let system = variable("CARGO_CFG_TARGET_OS");
    // (a program without a system gives the library its memory)
    if !["linux", "none"].contains(&system.as_str()) || !Path::new(&folder).is_dir() {
        eprintln!("this crate has no library of nidzaru for {machine}-{system}");
        exit(1);
    }
    // (only a compiler that has `-Zsanitizer` tells of it)
    if variable("CARGO_CFG_SANITIZE").split(',').any(|it| it == "thread") {
        println!("cargo:rustc-cfg=nidzaru_watched");
    }
    println!("cargo:rerun-if-changed=lib/{machine}/libnidzaru.a");
    println!("cargo:rustc-link-search=native={folder}");
    println!("cargo:rustc-link-lib=static=nidzaru");
}
