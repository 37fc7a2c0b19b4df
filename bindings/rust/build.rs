//! Links the static library: `DAPMOTAR_LIB`, or where `tools/staticlib` (x86-64) and `tools/native-staticlib` (aarch64) write it;
//! a relative path is seen from the repository's top.

use std::env;
use std::path::PathBuf;

fn main() {
    println!("cargo::rerun-if-env-changed=DAPMOTAR_LIB");
    println!("cargo::rerun-if-changed=build.rs");
    if env::var_os("CARGO_FEATURE_UNLINKED").is_some() {
        return;
    }
    let here = PathBuf::from(env::var_os("CARGO_MANIFEST_DIR").expect("cargo sets it"));
    let top = here
        .ancestors()
        .nth(2)
        .expect("bindings/rust stands in the repository");
    let (usual, maker) = match env::var("CARGO_CFG_TARGET_ARCH").as_deref() {
        Ok("x86_64") => ("target/staticlib/libcapi.a", "tools/staticlib"),
        _ => ("target/native/libcapi.a", "tools/native-staticlib"),
    };
    let given = env::var_os("DAPMOTAR_LIB").unwrap_or_else(|| usual.into());
    let archive = top.join(given);
    println!("cargo::rerun-if-changed={}", archive.display());
    assert!(
        archive.is_file(),
        "no {}: make it with `{maker}`, or set DAPMOTAR_LIB",
        archive.display()
    );
    let folder = archive.parent().expect("a file stands in a folder");
    let name = archive
        .file_stem()
        .and_then(|s| s.to_str())
        .and_then(|s| s.strip_prefix("lib"));
    let name = name.expect("the archive is named libNAME.a");
    println!("cargo::rustc-link-search=native={}", folder.display());
    println!("cargo::rustc-link-lib=static={name}");
}
