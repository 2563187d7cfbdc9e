//! Links the archive that `tools/build basilothyn` writes.

use std::path::Path;
use std::process::exit;

fn main() {
    let here = std::env::var("CARGO_MANIFEST_DIR").expect("cargo names the package's folder");
    let folder = Path::new(&here).join("../target/staticlib");
    let archive = folder.join("libbasilothyn.a");
    println!("cargo:rerun-if-changed={}", archive.display());
    if !archive.is_file() {
        eprintln!("the archive of the core is missing: {}", archive.display());
        eprintln!("run `tools/build basilothyn` in the repository's top folder first; it needs the Rattle toolchain");
        exit(1);
    }
    println!("cargo:rustc-link-search=native={}", folder.display());
    println!("cargo:rustc-link-lib=static=basilothyn");
}
