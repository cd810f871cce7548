// Links the port's static libraries: libparts.a if PARTS_LIB names it, libgougelily.a
// if GOUGELILY_LIB does. A relative path starts at the repository root, the parent
// of the workspace. Both can be linked: what they share is local to each.

use std::path::PathBuf;

/// Links the library that an environment variable names, and sets a cfg for it.
fn link(variable: &str, cfg: &str) {
    println!("cargo:rerun-if-env-changed={variable}");
    println!("cargo:rustc-check-cfg=cfg({cfg})");
    let Ok(name) = std::env::var(variable) else {
        return;
    };
    let root = PathBuf::from(std::env::var("CARGO_MANIFEST_DIR").expect("set by cargo"));
    let path = root.join("../..").join(&name);
    let path = path
        .canonicalize()
        .unwrap_or_else(|error| panic!("{variable}, {}: {error}", path.display()));
    let file = path.file_name().and_then(|file| file.to_str());
    let library = file.and_then(|file| file.strip_prefix("lib")?.strip_suffix(".a"));
    let library =
        library.unwrap_or_else(|| panic!("{variable} names no libNAME.a: {}", path.display()));
    let folder = path.parent().expect("a file lies in a folder");
    println!("cargo:rerun-if-changed={}", path.display());
    println!("cargo:rustc-link-search=native={}", folder.display());
    println!("cargo:rustc-link-lib=static={library}");
    println!("cargo:rustc-cfg={cfg}");
}

fn main() {
    link("PARTS_LIB", "parts_linked");
    link("GOUGELILY_LIB", "gougelily_linked");
}
