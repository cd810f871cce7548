// Build script of the shim: compiles the original auxiliary.rs and injectivity.rs
// where they lie and checks the shim's constants and types against the original
// lib.rs.

#[path = "../source.rs"]
#[allow(dead_code)]
mod source;

const PACKAGE: &str = "strided-view";

fn main() {
    source::require_same_definitions(
        PACKAGE,
        "lib.rs",
        &["INLINE_RANK", "StrideVec", "AxisVec", "Result<T>"],
    );
    let modules = ["auxiliary.rs", "injectivity.rs"].map(|file| source::module(PACKAGE, file));
    let modules = modules.concat();
    source::write_modules(PACKAGE, &modules.replace("pub(crate) mod", "pub mod"));
}
