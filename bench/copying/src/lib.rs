//! What gougelily_copy is timed beside, for bench/export: the original's `replay_copy_raw`, a plain double loop, the
//! same loop block by block, other loops of transposes, and memcpy. Each function makes a number of calls and answers the seconds that they took,
//! so that no call from Python is in the times. `stand_ins` has what the original's file names and is not published.

include!(concat!(env!("OUT_DIR"), "/originals.rs"));

mod plain;
mod stand_ins;
mod turned;

pub use inline::{InlineVec, OperandVec};
pub use stand_ins::{
    copy_plan, cost, layout_check, threading, ElementOpApply, Exec, RawStridedMut, RawStridedRef,
};
pub use strided_view::*;

use std::time::Instant;

// Constants of the original lib.rs.
pub const BLOCK_MEMORY_SIZE: usize = 32 * 1024;
pub const CACHE_LINE_SIZE: usize = 64;
pub(crate) const L1_WAYS: usize = 8;
pub(crate) const L1_LIVE_LINES_PER_SET: usize = L1_WAYS - L1_WAYS / 4;

/// One operand: its bytes, the cell of the first index, and a stride in cells for each axis.
#[repr(C)]
pub struct Operand {
    bytes: *mut u8,
    len: usize,
    start: isize,
    strides: *const isize,
}

/// A copy: axis 0 is gone along first. `blocks` is read by `time_blocks` alone.
#[repr(C)]
pub struct Job {
    width: usize,
    rank: usize,
    extents: *const usize,
    blocks: *const usize,
    to: Operand,
    from: Operand,
}

impl Job {
    unsafe fn list<'a, T>(&self, numbers: *const T) -> &'a [T] {
        std::slice::from_raw_parts(numbers, self.rank)
    }
}

/// gougelily_copy, as the header declares it.
pub type Port = unsafe extern "C" fn(
    *const u64,
    usize,
    *const u64,
    usize,
    *const i64,
    usize,
    u64,
    u64,
    u64,
    u64,
    *const i64,
    usize,
    *mut u8,
    usize,
    *const u8,
    usize,
) -> i64;

fn seconds(calls: usize, mut f: impl FnMut()) -> f64 {
    let begun = Instant::now();
    for _ in 0..calls {
        f();
    }
    begun.elapsed().as_secs_f64()
}

/// The cell of a width, as a user of the original would have it.
macro_rules! by_width {
    ($width:expr, $f:ident ( $($argument:expr),* )) => {
        match $width {
            1 => $f::<u8>($($argument),*),
            2 => $f::<u16>($($argument),*),
            3 => $f::<[u8; 3]>($($argument),*),
            4 => $f::<u32>($($argument),*),
            8 => $f::<u64>($($argument),*),
            12 => $f::<[u32; 3]>($($argument),*),
            16 => $f::<[u64; 2]>($($argument),*),
            _ => f64::NAN,
        }
    };
}

/// # Safety
/// The job's cells lie in its operands, as the port judges; the record is the four numbers.
#[no_mangle]
pub unsafe extern "C" fn time_port(
    port: Port,
    job: &Job,
    record: &[u64; 4],
    calls: usize,
) -> f64 {
    let extents: Vec<u64> = job.list(job.extents).iter().map(|&e| e as u64).collect();
    let both = [job.list(job.to.strides), job.list(job.from.strides)].concat();
    let strides: Vec<i64> = both.iter().map(|&s| s as i64).collect();
    let sizes = [job.width as u64; 2];
    let starts = [job.to.start as i64, job.from.start as i64];
    let mut answer = 0;
    let taken = seconds(calls, || {
        answer = port(
            extents.as_ptr(),
            extents.len(),
            sizes.as_ptr(),
            2,
            strides.as_ptr(),
            strides.len(),
            record[0],
            record[1],
            record[2],
            record[3],
            starts.as_ptr(),
            2,
            job.to.bytes,
            job.to.len,
            job.from.bytes,
            job.from.len,
        );
    });
    if answer == 0 {
        taken
    } else {
        answer as f64
    }
}

unsafe fn original<T: Copy + Send + Sync>(job: &Job, calls: usize) -> f64 {
    let cell = std::mem::size_of::<T>();
    let dims = job.list(job.extents);
    let (to, from) = (job.list(job.to.strides), job.list(job.from.strides));
    let source = std::slice::from_raw_parts(job.from.bytes as *const T, job.from.len / cell);
    let destination = std::slice::from_raw_parts_mut(job.to.bytes as *mut T, job.to.len / cell);
    let source = RawStridedRef::new_unchecked(source, dims, from, job.from.start);
    seconds(calls, || {
        let mut destination = RawStridedMut::new_unchecked(destination, dims, to, job.to.start);
        raw_ops::replay_copy_raw(&mut destination, &source, Exec::serial()).expect("a replay");
    })
}

/// # Safety
/// The job's cells lie in its operands, which are aligned for its cells and do not overlap.
#[no_mangle]
pub unsafe extern "C" fn time_original(job: &Job, calls: usize) -> f64 {
    by_width!(job.width, original(job, calls))
}

unsafe fn plainly<T: Copy>(job: &Job, blocks: &[usize], calls: usize) -> f64 {
    let extents = job.list(job.extents);
    let (to, from) = (job.list(job.to.strides), job.list(job.from.strides));
    seconds(calls, || {
        let destination = (job.to.bytes as *mut T).offset(job.to.start);
        let source = (job.from.bytes as *const T).offset(job.from.start);
        plain::tiles(extents, blocks, to, from, destination, source);
    })
}

/// # Safety
/// As `time_original`.
#[no_mangle]
pub unsafe extern "C" fn time_plain(job: &Job, calls: usize) -> f64 {
    by_width!(job.width, plainly(job, job.list(job.extents), calls))
}

/// # Safety
/// As `time_original`; no block is 0.
#[no_mangle]
pub unsafe extern "C" fn time_blocks(job: &Job, calls: usize) -> f64 {
    by_width!(job.width, plainly(job, job.list(job.blocks), calls))
}

unsafe fn turning(job: &Job, calls: usize, kernel: unsafe fn(&turned::Turn)) -> f64 {
    let (to, from) = (job.list(job.to.strides), job.list(job.from.strides));
    assert!(job.rank == 2 && to[0] == 1 && from[1] == 1, "not a transpose");
    let bytes = |cells: isize| cells * job.width as isize;
    let turn = turned::Turn {
        extents: job.list(job.extents),
        blocks: job.list(job.blocks),
        to: bytes(to[1]),
        from: bytes(from[0]),
        destination: job.to.bytes.offset(bytes(job.to.start)),
        source: job.from.bytes.offset(bytes(job.from.start)),
    };
    seconds(calls, || kernel(std::hint::black_box(&turn)))
}

/// # Safety
/// As `time_blocks`; the job is a transpose.
#[no_mangle]
pub unsafe extern "C" fn time_words(job: &Job, calls: usize) -> f64 {
    match job.width {
        1 => turning(job, calls, turned::by_words::<1, 8>),
        2 => turning(job, calls, turned::by_words::<2, 4>),
        4 => turning(job, calls, turned::by_words::<4, 2>),
        _ => f64::NAN,
    }
}

/// # Safety
/// As `time_words`.
#[no_mangle]
pub unsafe extern "C" fn time_eight(job: &Job, calls: usize) -> f64 {
    match job.width {
        1 => turning(job, calls, turned::eight::<1>),
        2 => turning(job, calls, turned::eight::<2>),
        4 => turning(job, calls, turned::eight::<4>),
        8 => turning(job, calls, turned::eight::<8>),
        12 => turning(job, calls, turned::eight::<12>),
        16 => turning(job, calls, turned::eight::<16>),
        _ => f64::NAN,
    }
}

/// # Safety
/// Both operands have so many bytes and do not overlap.
#[no_mangle]
pub unsafe extern "C" fn time_memcpy(to: *mut u8, from: *const u8, len: usize, calls: usize) -> f64 {
    seconds(calls, || {
        std::ptr::copy_nonoverlapping(std::hint::black_box(from), std::hint::black_box(to), len)
    })
}
