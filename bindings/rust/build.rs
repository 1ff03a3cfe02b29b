//! Links the static library of the proved calls: libfathrugg.a in the folder FATHRUGG_LIB_DIR, else where `rt lib` in
//! crates/fathrugg puts it.
use std::env;
use std::path::PathBuf;

fn main() {
    let manifest = PathBuf::from(env::var_os("CARGO_MANIFEST_DIR").expect("cargo names the folder of the manifest"));
    // a relative folder counts from the manifest's
    let folder = manifest.join(env::var_os("FATHRUGG_LIB_DIR").unwrap_or_else(|| "../../crates/fathrugg/out".into()));
    let archive = folder.join("libfathrugg.a");
    if !archive.is_file() {
        println!("cargo:warning=no libfathrugg.a in {}: make it with `rt lib` in crates/fathrugg, or set FATHRUGG_LIB_DIR", folder.display());
    }
    println!("cargo:rustc-link-search=native={}", folder.display());
    println!("cargo:rustc-link-lib=static=fathrugg");
    println!("cargo:rerun-if-env-changed=FATHRUGG_LIB_DIR");
    println!("cargo:rerun-if-changed={}", archive.display());
    println!("cargo:rerun-if-changed=build.rs");
}
