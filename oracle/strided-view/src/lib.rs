//! Shim of strided-view's lib.rs: the constants, types and errors that the
//! planner's files name. The modules `auxiliary` and `injectivity` are the
//! original files. The
//! build fails if a definition here differs from the original's.

include!(concat!(env!("OUT_DIR"), "/originals.rs"));

pub const INLINE_RANK: usize = 8;
pub type StrideVec = tinyvec::TinyVec<[isize; INLINE_RANK]>;
pub type AxisVec = tinyvec::TinyVec<[usize; INLINE_RANK]>;

/// The cases of the original's error that the planner's files name.
#[derive(Debug)]
pub enum StridedError {
    RankMismatch(usize, usize),
    ShapeMismatch(Vec<usize>, Vec<usize>),
    StrideLengthMismatch,
    OffsetOverflow,
}

pub type Result<T> = std::result::Result<T, StridedError>;
