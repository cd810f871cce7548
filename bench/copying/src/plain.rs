//! A plain double loop over axes 0 and 1, in loops over the axes behind them; whole, or tile by tile.

/// Copies a box of cells: a double loop, for each index of the axes from 2 on.
unsafe fn cells<T: Copy>(
    extents: &[usize],
    to: &[isize],
    from: &[isize],
    destination: *mut T,
    source: *const T,
) {
    match extents.len() {
        0 => *destination = *source,
        1 => {
            for i in 0..extents[0] as isize {
                *destination.offset(i * to[0]) = *source.offset(i * from[0]);
            }
        }
        2 => {
            for j in 0..extents[1] as isize {
                let (d, s) = (destination.offset(j * to[1]), source.offset(j * from[1]));
                for i in 0..extents[0] as isize {
                    *d.offset(i * to[0]) = *s.offset(i * from[0]);
                }
            }
        }
        rank => {
            let last = rank - 1;
            for k in 0..extents[last] as isize {
                cells(
                    &extents[..last],
                    &to[..last],
                    &from[..last],
                    destination.offset(k * to[last]),
                    source.offset(k * from[last]),
                );
            }
        }
    }
}

/// Goes through the tiles of such blocks, the first axis quickest.
pub unsafe fn tiles<T: Copy>(
    extents: &[usize],
    blocks: &[usize],
    to: &[isize],
    from: &[isize],
    destination: *mut T,
    source: *const T,
) {
    let rank = extents.len();
    assert!(rank <= 64 && blocks.iter().all(|&block| 0 < block));
    let mut starts = [0usize; 64];
    let mut lengths = [0usize; 64];
    loop {
        let (mut d, mut s) = (destination, source);
        for axis in 0..rank {
            lengths[axis] = blocks[axis].min(extents[axis] - starts[axis]);
            d = d.offset(starts[axis] as isize * to[axis]);
            s = s.offset(starts[axis] as isize * from[axis]);
        }
        cells(&lengths[..rank], to, from, d, s);
        let mut axis = 0;
        loop {
            if axis == rank {
                return;
            }
            starts[axis] += blocks[axis];
            if starts[axis] < extents[axis] {
                break;
            }
            starts[axis] = 0;
            axis += 1;
        }
    }
}
