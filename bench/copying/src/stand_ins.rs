//! Stand-ins for what the original's raw_ops.rs and kernel.rs name and is not published: the views of raw layouts, and
//! the token of a serial run. `replay_fused` hands a serial run to the original's `replay_route_serial`, as the comment
//! there says.

use crate::cost::KernelClass;
use core::num::NonZeroUsize;
use std::marker::PhantomData;

pub struct RawStridedRef<'a, T> {
    data: &'a [T],
    dims: &'a [usize],
    strides: &'a [isize],
    offset: isize,
}

pub struct RawStridedMut<'a, T> {
    data: &'a mut [T],
    dims: &'a [usize],
    strides: &'a [isize],
    offset: isize,
}

macro_rules! view {
    ($name:ident, $data:ty) => {
        impl<'a, T> $name<'a, T> {
            /// # Safety
            /// Every offset that the layout reaches lies in the data.
            pub unsafe fn new_unchecked(
                data: $data,
                dims: &'a [usize],
                strides: &'a [isize],
                offset: isize,
            ) -> Self {
                Self {
                    data,
                    dims,
                    strides,
                    offset,
                }
            }
            pub fn dims(&self) -> &'a [usize] {
                self.dims
            }
            pub fn strides(&self) -> &'a [isize] {
                self.strides
            }
            pub fn offset(&self) -> isize {
                self.offset
            }
        }
    };
}
view!(RawStridedRef, &'a [T]);
view!(RawStridedMut, &'a mut [T]);

impl<T> RawStridedRef<'_, T> {
    pub fn data(&self) -> &[T] {
        self.data
    }
}

impl<T> RawStridedMut<'_, T> {
    pub fn data_mut(&mut self) -> &mut [T] {
        self.data
    }
}

/// A serial run.
#[derive(Clone, Copy)]
pub struct Exec<'a>(PhantomData<&'a ()>);

impl Exec<'_> {
    pub fn serial() -> Self {
        Exec(PhantomData)
    }
    pub fn is_serial(&self) -> bool {
        true
    }
    pub fn limit(self, _: NonZeroUsize) -> Self {
        self
    }
}

/// Named in functions that are not called.
pub trait ElementOpApply {
    fn conj(self) -> Self;
}

pub mod cost {
    use crate::Exec;

    #[derive(Clone, Copy)]
    pub enum KernelClass {
        Map,
        Copy,
    }

    impl KernelClass {
        pub fn ns_per_element(self) -> f64 {
            1.0
        }
    }

    pub fn for_len<'a>(exec: Exec<'a>, _: KernelClass, _: usize) -> Exec<'a> {
        exec
    }
}

pub mod threading {
    pub fn is_parallel(_: super::KernelClass, _: usize, _: &crate::Exec<'_>) -> bool {
        false
    }
}

pub mod layout_check {
    pub use strided_view::injectivity::is_injective_layout_without_alloc;
}

pub mod copy_plan {
    use crate::raw_ops::{replay_route_serial, Route};
    use crate::{Exec, RawStridedMut, RawStridedRef};

    /// # Safety
    /// As the original's.
    pub(crate) unsafe fn replay_fused<D, S, Apply>(
        dest: &mut RawStridedMut<'_, D>,
        src: &RawStridedRef<'_, S>,
        route: Route<'_>,
        apply: Apply,
        _: f64,
        _: Exec<'_>,
    ) where
        D: Copy,
        S: Copy,
        Apply: Fn(&mut D, S),
    {
        let (src_ptr, src_base, dst_base) = (src.data().as_ptr(), src.offset(), dest.offset());
        let dst_ptr = dest.data_mut().as_mut_ptr();
        let mut apply = |d: &mut D, s: S| apply(d, s);
        replay_route_serial(dst_ptr, dst_base, src_ptr, src_base, route, &mut apply);
    }
}
