//! Transposes with other loops inside the same tiles, for bench/export --kernels: what the copy's kernels could gain. The
//! destination's cells follow each other along axis 0, the source's along axis 1.

/// A transpose: extents, blocks, and how many bytes it is from run to run of the destination and from cell to cell of a
/// run of the source.
pub struct Turn<'a> {
    pub extents: &'a [usize],
    pub blocks: &'a [usize],
    pub to: isize,
    pub from: isize,
    pub destination: *mut u8,
    pub source: *const u8,
}

/// Exchanges every second part of `bits` bits of one word with the parts between them of another; `even` has the first.
#[inline(always)]
fn exchange(a: &mut u64, b: &mut u64, bits: u32, even: u64) {
    let (x, y) = (*a, *b);
    *a = (x & even) | ((y & even) << bits);
    *b = ((x >> bits) & even) | (y & !even);
}

/// Turns G runs of G cells, a run in a word.
#[inline(always)]
fn turn<const G: usize>(words: &mut [u64; G]) {
    let mut apart = 1;
    while apart < G {
        let bits = (64 / G * apart) as u32;
        let even = u64::MAX / ((1 << bits) + 1);
        for i in (0..G).filter(|i| i & apart == 0) {
            let (head, tail) = words.split_at_mut(i + apart);
            exchange(&mut head[i], &mut tail[0], bits, even);
        }
        apart *= 2;
    }
}

/// Cells i to `end` of the runs from j on, cell by cell across the runs.
#[inline(always)]
unsafe fn across<const W: usize>(t: &Turn, i: usize, end: usize, j: usize, runs: usize) {
    for i in i..end {
        for j in j..j + runs {
            let cell = *(t.source.offset(i as isize * t.from).add(j * W) as *const [u8; W]);
            *(t.destination.offset(j as isize * t.to).add(i * W) as *mut [u8; W]) = cell;
        }
    }
}

/// Tile by tile, axis 0 quickest; in a tile `side` runs at once by `many`, and those that are left one by one.
#[inline(always)]
unsafe fn tiles<const W: usize>(t: &Turn, side: usize, many: impl Fn(&Turn, usize, usize, usize)) {
    for first in (0..t.extents[1]).step_by(t.blocks[1]) {
        let last = t.extents[1].min(first + t.blocks[1]);
        for begin in (0..t.extents[0]).step_by(t.blocks[0]) {
            let end = t.extents[0].min(begin + t.blocks[0]);
            let mut j = first;
            while j + side <= last {
                many(t, begin, end, j);
                j += side;
            }
            for j in j..last {
                across::<W>(t, begin, end, j, 1);
            }
        }
    }
}

/// Sixteen runs at once, G cells of G of them turned in registers; a cell has W bytes, and a word G of them.
pub unsafe fn by_words<const W: usize, const G: usize>(t: &Turn) {
    tiles::<W>(t, 16, |t, begin, end, j| {
        let mut i = begin;
        while i + G <= end {
            for x in (j..j + 16).step_by(G) {
                let mut words = [0u64; G];
                for (k, word) in words.iter_mut().enumerate() {
                    *word = (t.source.offset((i + k) as isize * t.from).add(x * W) as *const u64)
                        .read_unaligned();
                }
                turn(&mut words);
                for (k, word) in words.iter().enumerate() {
                    (t.destination.offset((x + k) as isize * t.to).add(i * W) as *mut u64)
                        .write_unaligned(*word);
                }
            }
            i += G;
        }
        across::<W>(t, i, end, j, 16);
    });
}

/// Eight runs at once, cell by cell.
pub unsafe fn eight<const W: usize>(t: &Turn) {
    tiles::<W>(t, 8, |t, begin, end, j| across::<W>(t, begin, end, j, 8));
}
