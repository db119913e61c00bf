//! Asks the program pkg-config where the installed library is.

use std::env;
use std::path::Path;
use std::process::Command;

/// What pkg-config prints for this word.
fn ask(word: &str) -> Result<String, String> {
    let program = env::var("PKG_CONFIG").unwrap_or_else(|_| "pkg-config".into());
    let answer = Command::new(&program).args([word, "nidzaru"]).output().map_err(|error| format!("{program}: {error}"))?;
    if answer.status.success() {
        Ok(String::from_utf8_lossy(&answer.stdout).trim().to_string())
    } else {
        Err(String::from_utf8_lossy(&answer.stderr).trim().to_string())
    }
}

/// A version's three numbers.
fn numbers(version: &str) -> Option<[u64; 3]> {
    let mut parts = version.split('.').map(|part| part.parse().ok());
    let numbers = [parts.next()??, parts.next()??, parts.next()??];
    parts.next().is_none().then_some(numbers)
}

/// Whether a library of this version has all that this crate calls: it is of the same major version, and not older than the crate.
fn suits(library: &str) -> bool {
    match (numbers(library), numbers(env!("CARGO_PKG_VERSION"))) {
        (Some(theirs), Some(ours)) => theirs[0] == ours[0] && theirs >= ours,
        _ => false,
    }
}

/// Tells cargo where the library is, if it is there and suits this crate.
fn link() -> Result<(), String> {
    let version = ask("--modversion")?;
    if !suits(&version) {
        let needed = env!("CARGO_PKG_VERSION");
        return Err(format!("the library is of version {version}, and this crate needs {needed} or a later one of its major version"));
    }
    // (a library from before this was asked is for x86-64)
    let machine = ask("--variable=machine").ok().filter(|it| !it.is_empty()).unwrap_or_else(|| "x86_64".into());
    let wanted = env::var("CARGO_CFG_TARGET_ARCH").unwrap_or_default();
    if machine != wanted {
        return Err(format!("the library is for {machine}, and this program for {wanted}"));
    }
    let (folder, packages) = (ask("--variable=libdir")?, ask("--variable=pcfiledir")?);
    let library = Path::new(&folder).join("libnidzaru.a");
    if !library.is_file() {
        return Err(format!("there is no {}", library.display()));
    }
    println!("cargo:rustc-link-search=native={folder}");
    println!("cargo:rustc-link-lib=static=nidzaru");
    // (where another library is installed there, it is linked anew)
    println!("cargo:rerun-if-changed={}", library.display());
    println!("cargo:rerun-if-changed={}", Path::new(&packages).join("nidzaru.pc").display());
    Ok(())
}

fn main() {
    for name in ["PKG_CONFIG", "PKG_CONFIG_PATH", "PKG_CONFIG_LIBDIR"] {
        println!("cargo:rerun-if-env-changed={name}");
    }
    println!("cargo:rerun-if-changed=build.rs");
    // (only a compiler that has `-Zsanitizer` tells of it)
    if env::var("CARGO_CFG_SANITIZE").is_ok_and(|sanitizers| sanitizers.split(',').any(|it| it == "thread")) {
        println!("cargo:rustc-cfg=nidzaru_watched");
    }
    if let Err(why) = link() {
        // (the crate tells it when it is compiled: its documents are made without the library)
        let install = "install it by `./install PREFIX` of its repository or its package, and set PKG_CONFIG_PATH=PREFIX/lib/pkgconfig";
        println!("cargo:rustc-cfg=nidzaru_missing");
        // (cargo asks again at the next build, since this file is never there)
        println!("cargo:rerun-if-changed=a-library-that-is-installed-later");
        println!("cargo:rustc-env=NIDZARU_MISSING=the library nidzaru isn't found: {}; {install}", why.replace('\n', " "));
    }
}
