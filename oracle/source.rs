// Shared by the build scripts: finds the original sources, compares a shim's
// constants with the original ones, and makes the changed and the counted copies.

use std::path::PathBuf;

/// The path of an original file. STRIDED_SRC names the source folder; a
/// relative path starts at the repository root, the parent of the workspace.
pub fn original(package: &str, file: &str) -> PathBuf {
    println!("cargo:rerun-if-env-changed=STRIDED_SRC");
    let root = PathBuf::from(env("CARGO_MANIFEST_DIR")).join("../..");
    let folder = std::env::var("STRIDED_SRC").unwrap_or("../shared/docs/src".to_string());
    let path = root.join(folder).join(package).join("src").join(file);
    let path = path.canonicalize().unwrap_or_else(|error| {
        panic!(
            "{}: {error}; STRIDED_SRC names the source folder",
            path.display()
        )
    });
    println!("cargo:rerun-if-changed={}", path.display());
    path
}

/// The text of an original file.
pub fn text(package: &str, file: &str) -> String {
    std::fs::read_to_string(original(package, file)).expect("the original is text")
}

/// A module declaration that compiles an original file where it lies.
pub fn module(package: &str, file: &str) -> String {
    let name = file.strip_suffix(".rs").expect("a Rust file");
    let path = original(package, file);
    format!("#[path = {path:?}]\n#[allow(dead_code, unused_imports)]\npub(crate) mod {name};\n")
}

/// A module declaration that compiles a changed copy under the original's name;
/// without changes it compiles the original where it lies.
pub fn changed_module(package: &str, file: &str, changes: &[(&str, &str)]) -> String {
    if changes.is_empty() {
        return module(package, file);
    }
    let name = file.strip_suffix(".rs").expect("a Rust file");
    copied_module(package, file, name, changes, "")
}

/// A module declaration for a counted copy.
pub fn counted_module(package: &str, file: &str, changes: &[(&str, &str)], doors: &str) -> String {
    let name = format!("{}_counted", file.strip_suffix(".rs").expect("a Rust file"));
    copied_module(package, file, &name, changes, doors)
}

/// A module declaration for a changed copy, written to the build folder.
fn copied_module(
    package: &str,
    file: &str,
    name: &str,
    changes: &[(&str, &str)],
    doors: &str,
) -> String {
    let copy = changed(&text(package, file), changes).unwrap_or_else(|error| {
        panic!("{package}/src/{file}: {error}");
    });
    let path = PathBuf::from(env("OUT_DIR")).join(format!("{name}.rs"));
    std::fs::write(&path, copy + doors).expect("the build folder takes files");
    format!("#[path = {path:?}]\n#[allow(dead_code, unused_imports)]\npub(crate) mod {name};\n")
}

/// The text with each change made. Each text to change occurs exactly once.
pub fn changed(text: &str, changes: &[(&str, &str)]) -> Result<String, String> {
    let mut out = text.to_string();
    for (from, to) in changes {
        let found = text.matches(from).count();
        if found != 1 {
            return Err(format!("{found} places to change, not one: {from}"));
        }
        out = out.replace(from, to);
    }
    Ok(out)
}

/// The right side of the only `const` or `type` definition of a name.
pub fn definition(text: &str, name: &str) -> Result<String, String> {
    let mut found = Vec::new();
    for line in text.lines() {
        let mut line = line.trim();
        for visibility in ["pub(crate) ", "pub "] {
            line = line.strip_prefix(visibility).unwrap_or(line);
        }
        for keyword in ["const ", "type "] {
            let rest = line
                .strip_prefix(keyword)
                .and_then(|rest| rest.strip_prefix(name));
            let Some(rest) = rest else {
                continue;
            };
            if rest.starts_with(':') || rest.starts_with(' ') {
                found.push(rest.trim().to_string());
            }
        }
    }
    match found.as_slice() {
        [one] if one.ends_with(';') => Ok(one.clone()),
        _ => Err(format!(
            "{name} has {} one-line definitions, not one",
            found.len()
        )),
    }
}

/// Whether a shim defines a name just as the original does.
pub fn same_definition(original: &str, shim: &str, name: &str) -> Result<(), String> {
    let original = definition(original, name)?;
    let shim = definition(shim, name)?;
    if original != shim {
        return Err(format!(
            "{name} is `{original}` in the original and `{shim}` in the shim"
        ));
    }
    Ok(())
}

/// Ends the build if the shim differs from the original in one of the names.
pub fn require_same_definitions(package: &str, file: &str, names: &[&str]) {
    let path = format!("../{package}/src/lib.rs");
    println!("cargo:rerun-if-changed={path}");
    let original = text(package, file);
    let shim = std::fs::read_to_string(path).expect("the shim's lib.rs");
    for name in names {
        if let Err(error) = same_definition(&original, &shim, name) {
            panic!("{package}/src/{file}: {error}");
        }
    }
}

/// Writes the module declarations that the shim's lib.rs includes.
pub fn write_modules(package: &str, modules: &str) {
    println!("cargo:rerun-if-changed=../source.rs");
    println!("cargo:rerun-if-changed=../{package}/build.rs");
    let path = PathBuf::from(env("OUT_DIR")).join("originals.rs");
    std::fs::write(path, modules).expect("the build folder takes files");
}

fn env(name: &str) -> String {
    std::env::var(name).unwrap_or_else(|_| panic!("cargo sets {name}"))
}
