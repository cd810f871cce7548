//! The port's C functions, with a safe face for each: its public library
//! gougelily, and the inner parts of its crate parts. Each is there if the
//! environment variable GOUGELILY_LIB or PARTS_LIB named the static library at
//! the build.

pub mod gougelily;
pub mod parts;

use tools::layout::{Layout, Purpose};

/// The strides of a plan's axes, a row of 64 per operand.
pub type Strides = [i64; 512];

/// A layout as the port takes it.
#[derive(Clone, Debug)]
pub struct Flat {
    pub extents: Vec<u64>,
    pub sizes: Vec<u64>,
    /// Operand by operand.
    pub strides: Vec<i64>,
    /// 0 for pointwise with no chosen operand, 1 for pointwise, 2 for a fold.
    pub kind: u64,
    pub chosen: u64,
}

impl Flat {
    pub fn of(layout: &Layout) -> Flat {
        let kind = match (layout.purpose, layout.chosen) {
            (Purpose::Pointwise, None) => 0,
            (Purpose::Pointwise, Some(_)) => 1,
            (Purpose::Fold, _) => 2,
        };
        let strides = layout.strides.iter().flatten();
        Flat {
            extents: layout.extents.iter().map(|&extent| extent as u64).collect(),
            sizes: layout.sizes.iter().map(|&size| size as u64).collect(),
            strides: strides.map(|&stride| stride as i64).collect(),
            kind,
            chosen: layout.chosen.unwrap_or(0) as u64,
        }
    }
}

/// What a program says that needs a library and was built without it.
fn missing(variable: &str, file: &str) -> String {
    format!("built without the port: set {variable} to its {file} and build again")
}
