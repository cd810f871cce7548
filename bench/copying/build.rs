// Build script: compiles the original's copy of raw layouts and the planner files that it calls, where they lie.

#[path = "../../oracle/source.rs"]
#[allow(dead_code)]
mod source;

const PACKAGE: &str = "strided-basic";

fn main() {
    println!("cargo:rerun-if-changed=../../oracle/source.rs");
    let files = [
        "block.rs",
        "fuse.rs",
        "inline.rs",
        "kernel.rs",
        "order.rs",
        "raw_ops.rs",
    ];
    let modules: String = files
        .iter()
        .map(|file| source::module(PACKAGE, file))
        .collect();
    let out = std::env::var("OUT_DIR").expect("cargo names the build folder");
    std::fs::write(out + "/originals.rs", modules).expect("the build folder takes files");
}
