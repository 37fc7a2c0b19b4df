//! Finds the published sources and writes the module file that takes them in unchanged.
//!
//! The folder is `OXIEML_SRC`, or `../shared/docs/src`; a relative path is seen from the repository's top.

use std::env;
use std::fmt::Write as _;
use std::fs;
use std::path::{Path, PathBuf};

/// Every published file that is built, under its own path.
const FILES: [&str; 5] = [
    "src/error.rs",
    "src/linalg/builders.rs",
    "src/linalg/decomp.rs",
    "src/linalg/solve.rs",
    "src/symreg/strlsq.rs",
];

fn main() {
    println!("cargo::rerun-if-env-changed=OXIEML_SRC");
    println!("cargo::rerun-if-changed=build.rs");
    // A feature of the published crate that one of its files asks for and nobody turns on.
    println!("cargo::rustc-check-cfg=cfg(feature, values(\"tensorlogic\"))");

    let folder = folder();
    for file in FILES {
        let path = folder.join(file);
        assert!(
            path.is_file(),
            "no {} here: set OXIEML_SRC to the folder of the published sources",
            path.display()
        );
        println!("cargo::rerun-if-changed={}", path.display());
    }
    let out = PathBuf::from(env::var_os("OUT_DIR").expect("cargo sets OUT_DIR"));
    let third = out.join("strlsq_marquardt.rs");
    fs::write(&third, third_fit(&folder)).expect("the third fit is written");
    fs::write(out.join("published.rs"), module_file(&folder, &third))
        .expect("the module file is written");
}

/// The reference of the third fit, which the published sources don't have: their `strlsq`, the damping exchanged in
/// its first solve and in its refits, and not a letter more.
fn third_fit(folder: &Path) -> String {
    let (plain, in_proportion) = ("linalg::jtj(", "linalg::jtj_marquardt(");
    let text = fs::read_to_string(folder.join("src/symreg/strlsq.rs")).expect("the file was there");
    assert_eq!(text.matches(plain).count(), 2, "strlsq.rs damps elsewhere");
    text.replace(plain, in_proportion)
}

/// The folder of the published sources, whole.
fn folder() -> PathBuf {
    let here = PathBuf::from(env::var_os("CARGO_MANIFEST_DIR").expect("cargo sets it"));
    let top = here
        .parent()
        .expect("the package stands in the repository")
        .to_path_buf();
    let given = env::var_os("OXIEML_SRC").unwrap_or_else(|| "../shared/docs/src".into());
    let folder = top.join(given);
    folder
        .canonicalize()
        .unwrap_or_else(|e| panic!("no folder {}: set OXIEML_SRC ({e})", folder.display()))
}

/// The modules that the sources name (`crate::error`, `crate::linalg`), each taken from its file.
fn module_file(folder: &Path, third: &Path) -> String {
    let mut text = String::new();
    let module = |name: &str, file: &str| module_at(name, &folder.join(file));
    text += &module("error", "src/error.rs");
    text += "pub mod linalg {\n";
    text += &module("builders", "src/linalg/builders.rs");
    text += &module("decomp", "src/linalg/decomp.rs");
    text += &module("solve", "src/linalg/solve.rs");
    text += "pub use builders::*;\npub use decomp::*;\npub use solve::*;\n}\n";
    text += "pub mod symreg {\n";
    text += &module("strlsq", "src/symreg/strlsq.rs");
    text += &module_at("strlsq_marquardt", third);
    text += "}\n";
    text += "/// Each published file with the fingerprint of its bytes as built.\n";
    text += "pub const BUILT_FROM: &[(&str, u64)] = &[\n";
    for file in FILES {
        let bytes = fs::read(folder.join(file)).expect("the file was there");
        writeln!(text, "({file:?}, {:#018x}),", fingerprint(&bytes)).expect("a String takes it");
    }
    text + "];\n"
}

fn module_at(name: &str, file: &Path) -> String {
    format!("#[path = {file:?}]\n#[allow(clippy::all)]\npub mod {name};\n")
}

/// FNV-1a of 64 bits.
fn fingerprint(bytes: &[u8]) -> u64 {
    bytes.iter().fold(0xcbf2_9ce4_8422_2325, |h, &b| {
        (h ^ u64::from(b)).wrapping_mul(0x0000_0100_0000_01b3)
    })
}
