//! Links the proved archive into the benchmark where there is one for this machine, and says so by `cfg(linked)`: what
//! `host/native archive` writes on x86-64, what `host/native build` writes elsewhere. Without it all else is still built.

use std::path::Path;

fn main() {
    let here = std::env::var("CARGO_MANIFEST_DIR").expect("cargo names the package's folder");
    let machine = std::env::var("CARGO_CFG_TARGET_ARCH").expect("cargo names the processor");
    let folder = if machine == "x86_64" { "staticlib" } else { "native" };
    let archive = Path::new(&here).join("../target").join(folder).join("libdesk.a");
    println!("cargo:rerun-if-changed={}", archive.display());
    println!("cargo:rustc-check-cfg=cfg(linked)");
    if archive.exists() {
        println!("cargo:rustc-cfg=linked");
        println!("cargo:rustc-link-arg-bin=bench={}", archive.display());
    }
}
