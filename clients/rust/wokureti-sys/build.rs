//! Links the library: that of the folder in the variable WOKURETI_LIB, or bin/ of this checkout.
use std::env;
use std::fs;
use std::path::{Path, PathBuf};

/// The name that programs look for, which the linker finds as libwokureti.so.
const LIBRARY: &str = "libwokureti.so.0";

fn main() {
    println!("cargo:rerun-if-env-changed=WOKURETI_LIB");
    println!("cargo:rerun-if-env-changed=WOKURETI_STATIC");
    let here = PathBuf::from(env::var("CARGO_MANIFEST_DIR").expect("cargo names the folder of the package"));
    let folder = env::var("WOKURETI_LIB").map_or_else(|_| here.join("../../../bin"), PathBuf::from);
    let folder = folder.canonicalize().unwrap_or(folder);
    println!("cargo:folder={}", folder.display());
    // With WOKURETI_STATIC the library is in the program, which then needs no file of it.
    let is_static = env::var_os("WOKURETI_STATIC").is_some();
    let name = if is_static { "libwokureti.a" } else { LIBRARY };
    println!("cargo:rerun-if-changed={}", folder.join(name).display());
    if !is_static && copied(&folder) {
        return;
    }
    if !folder.join(name).exists() {
        println!("cargo:warning={name} is not in {}: ./serve.sh puts it into bin/, or set WOKURETI_LIB to the folder of `wokureti --libs`", folder.display());
    }
    println!("cargo:rustc-link-search=native={}", folder.display());
    println!("cargo:rustc-link-lib={}=wokureti", if is_static { "static" } else { "dylib" });
}

/// Copies the library into the folder of this build, and links it there: `cargo run` and `cargo test` of every crate tell programs to look there, and nowhere
/// else.
fn copied(folder: &Path) -> bool {
    let out = PathBuf::from(env::var("OUT_DIR").expect("cargo names the folder of the build"));
    let is_copied = [LIBRARY, "libwokureti.so"].iter().all(|name| fs::copy(folder.join(LIBRARY), out.join(name)).is_ok());
    // The loader takes the library for this processor, if there is one.
    for kind in fs::read_dir(folder.join("glibc-hwcaps")).into_iter().flatten().flatten() {
        let to = out.join("glibc-hwcaps").join(kind.file_name());
        let _ = fs::create_dir_all(&to).and_then(|()| fs::copy(kind.path().join(LIBRARY), to.join(LIBRARY)));
    }
    if is_copied {
        println!("cargo:rustc-link-search=native={}", out.display());
        println!("cargo:rustc-link-lib=dylib=wokureti");
    }
    is_copied
}
