//! Seeded layouts and walk requests: an own random number sequence, and one
//! maker per kind. The same seed, count and kind give the same text.

use crate::layout::{reach, Layout, Purpose, Request, Walk};

/// The sequence splitmix64.
pub struct Random(u64);

impl Random {
    pub fn new(seed: u64) -> Self {
        Random(seed)
    }

    pub fn next_number(&mut self) -> u64 {
        self.0 = self.0.wrapping_add(0x9e37_79b9_7f4a_7c15);
        let mut mixed = self.0;
        mixed = (mixed ^ (mixed >> 30)).wrapping_mul(0xbf58_476d_1ce4_e5b9);
        mixed = (mixed ^ (mixed >> 27)).wrapping_mul(0x94d0_49bb_1331_11eb);
        mixed ^ (mixed >> 31)
    }

    /// A number of `least..=greatest`.
    pub fn within(&mut self, least: usize, greatest: usize) -> usize {
        let span = (greatest - least) as u128 + 1;
        let drawn = (u128::from(self.next_number()) * span) >> 64;
        least + drawn as usize
    }

    /// True `part` times out of `whole`.
    pub fn chance(&mut self, part: usize, whole: usize) -> bool {
        self.within(1, whole) <= part
    }

    pub fn pick<T: Copy>(&mut self, list: &[T]) -> T {
        list[self.within(0, list.len() - 1)]
    }

    /// A number whose bit count is drawn first, at most `greatest`.
    pub fn magnitude(&mut self, greatest: usize) -> usize {
        let bits = self.within(0, (usize::BITS - greatest.leading_zeros()) as usize);
        let mask = if bits == 64 {
            usize::MAX
        } else {
            (1 << bits) - 1
        };
        (self.next_number() as usize & mask).min(greatest)
    }

    fn shuffle<T>(&mut self, list: &mut [T]) {
        for last in (1..list.len()).rev() {
            list.swap(last, self.within(0, last));
        }
    }
}

/// The kinds of requests.
#[derive(Clone, Copy, Debug, PartialEq, Eq)]
pub enum Kind {
    Order,
    Fuse,
    Block,
    Refuse,
    Small,
    Still,
    Wide,
    Mixed,
    Walk,
}

impl Kind {
    pub const NAMES: [(&'static str, Kind); 9] = [
        ("order", Kind::Order),
        ("fuse", Kind::Fuse),
        ("block", Kind::Block),
        ("refuse", Kind::Refuse),
        ("small", Kind::Small),
        ("still", Kind::Still),
        ("wide", Kind::Wide),
        ("mixed", Kind::Mixed),
        ("walk", Kind::Walk),
    ];

    pub fn of_name(name: &str) -> Option<Kind> {
        let found = Kind::NAMES.iter().find(|(known, _)| *known == name);
        found.map(|&(_, kind)| kind)
    }
}

/// The next request of a kind.
pub fn request(random: &mut Random, kind: Kind) -> Request {
    match kind {
        Kind::Walk => Request::Walk(walk(random)),
        _ => Request::Layout(layout(random, kind)),
    }
}

/// The next layout of a kind; at most a few in a hundred are refused, but for
/// the kind `refuse`.
pub fn layout(random: &mut Random, kind: Kind) -> Layout {
    loop {
        let layout = match kind {
            Kind::Order => order(random),
            Kind::Fuse => fuse(random),
            Kind::Block => block(random),
            Kind::Small => small(random),
            Kind::Still => still(random),
            Kind::Wide => wide(random),
            Kind::Refuse => return refuse(random),
            Kind::Mixed | Kind::Walk => {
                let kinds = [
                    Kind::Order,
                    Kind::Fuse,
                    Kind::Block,
                    Kind::Refuse,
                    Kind::Small,
                    Kind::Wide,
                ];
                let kind = random.pick(&kinds);
                return self::layout(random, kind);
            }
        };
        if layout.refusal().is_none() || random.chance(1, 50) {
            return layout;
        }
    }
}

const SIZES: [usize; 12] = [0, 1, 2, 4, 4, 8, 8, 8, 16, 16, 24, 64];
const GREATEST: usize = isize::MAX as usize;

fn sizes(random: &mut Random, operands: usize) -> Vec<usize> {
    let one = random.pick(&SIZES);
    let same = random.chance(1, 2);
    let size = |_| if same { one } else { random.pick(&SIZES) };
    (0..operands).map(size).collect()
}

/// A purpose, with a chosen operand or, for P, at times none.
fn purpose(random: &mut Random, operands: usize) -> (Purpose, Option<usize>) {
    let chosen = Some(random.within(0, operands - 1));
    match random.within(0, 4) {
        0 => (Purpose::Pointwise, None),
        1 => (Purpose::Fold, chosen),
        _ => (Purpose::Pointwise, chosen),
    }
}

fn finish(
    random: &mut Random,
    extents: Vec<usize>,
    sizes: Vec<usize>,
    strides: Vec<Vec<isize>>,
) -> Layout {
    let (purpose, chosen) = purpose(random, strides.len());
    Layout {
        purpose,
        chosen,
        extents,
        sizes,
        strides,
    }
}

/// A stride of any size, often an extreme one.
pub fn any_stride(random: &mut Random) -> isize {
    match random.within(0, 5) {
        0 => 0,
        1 => isize::MIN,
        2 => isize::MAX,
        3 => random.next_number() as isize,
        _ => signed(random, 1 << 20, 2),
    }
}

/// A stride up to a size, negative one time out of `part`.
fn signed(random: &mut Random, greatest: usize, part: usize) -> isize {
    let size = random.magnitude(greatest.min(GREATEST)) as isize;
    if random.chance(1, part) {
        -size
    } else {
        size
    }
}

/// Strides of every shape at every rank, most at ranks where the widths and
/// caps of the weights decide.
fn order(random: &mut Random) -> Layout {
    let rank = match random.within(0, 9) {
        0..=4 => random.within(60, 64),
        5..=6 => random.within(0, 8),
        _ => random.within(9, 59),
    };
    let operands = random.within(1, 8);
    let zero = rank > 0 && random.chance(1, 5);
    let mut extents = vec![1; rank];
    let mut places: Vec<usize> = (0..rank).collect();
    random.shuffle(&mut places);
    if zero {
        for extent in &mut extents {
            *extent = random.pick(&[0, 1, 1, 2, 3, 1 << 32, usize::MAX]);
        }
        extents[places[0]] = 0;
    } else {
        let moving = random.within(0, rank.min(63));
        let mut bits = 63;
        for (done, &axis) in places[..moving].iter().enumerate() {
            let spare = bits - (moving - done);
            let own = if random.chance(1, 2) {
                random.within(0, spare)
            } else {
                0
            };
            extents[axis] = random.within(2, 2 << own);
            bits -= own + 1;
        }
    }
    let sizes = sizes(random, operands);
    let mut strides = Vec::new();
    for &size in &sizes {
        let style = random.within(0, 3);
        let zeros = random.pick(&[0, 0, 1, 4, 7]);
        let negative = random.pick(&[1, 2, 4, 1000]);
        let mut ranks: Vec<usize> = (1..=rank).collect();
        random.shuffle(&mut ranks);
        let mut row = Vec::new();
        for (axis, &extent) in extents.iter().enumerate() {
            // Shares a span of 2^63 - 1 bytes among the axes.
            let share = GREATEST / size.max(1) / rank / extent.max(1);
            let stride = match style {
                0 => ranks[axis] as isize,
                1 => 1 << (ranks[axis] - 1).min(62),
                2 => random.within(1, 4) as isize,
                _ => signed(random, GREATEST, 1000),
            };
            let mut stride = if zero || extent <= 1 {
                stride
            } else {
                stride.min(share as isize)
            };
            if (zero || extent <= 1) && random.chance(1, 6) {
                stride = any_stride(random);
            }
            if random.chance(1, negative) {
                stride = stride.wrapping_neg();
            }
            row.push(if random.chance(zeros, 8) { 0 } else { stride });
        }
        strides.push(row);
    }
    finish(random, extents, sizes, strides)
}

/// Runs of axes that follow one another in memory, and what breaks them.
fn fuse(random: &mut Random) -> Layout {
    match random.within(0, 19) {
        0 => return fuse_above_signed(random),
        1 => return fuse_above_unsigned(random),
        _ => {}
    }
    let operands = random.pick(&[1, 1, 2, 2, 2, 3, 4, 8]);
    let sizes = sizes(random, operands);
    let rank = random.pick(&[1, 2, 3, 3, 4, 4, 5, 6, 7, 8, 9, 12, 20, 40, 64]);
    let mut bits = random.pick(&[8, 12, 20, 40]);
    let mut extents: Vec<usize> = Vec::new();
    let mut strides: Vec<Vec<isize>> = vec![Vec::new(); operands];
    let mut next: Vec<isize> = (0..operands)
        .map(|_| random.pick(&[1, 1, 1, 2, -1, -3]))
        .collect();
    for _ in 0..rank {
        let extent = match random.within(0, 9) {
            0 => 1,
            _ if bits == 0 => 1,
            1 => random.within(1, 1 << bits.min(10)),
            _ => random.within(2, 5),
        };
        bits -= bits.min((usize::BITS - (extent - 1).leading_zeros()) as usize);
        // A new run: a gap in memory, or an operand that stands still.
        let gap = random.chance(1, 5);
        for (row, next) in strides.iter_mut().zip(&mut next) {
            if gap {
                match random.within(0, 3) {
                    0 => *next = 0,
                    1 => *next = next.saturating_neg(),
                    _ => *next = next.saturating_add(random.within(1, 9) as isize),
                }
            }
            row.push(*next);
            *next = next.saturating_mul(extent as isize);
        }
        extents.push(extent);
    }
    for _ in 0..random.pick(&[0, 0, 1, 1, 2, 3]) {
        break_run(random, &mut extents, &mut strides);
    }
    finish(random, extents, sizes, strides)
}

/// One change to axes that fuse.
fn break_run(random: &mut Random, extents: &mut Vec<usize>, strides: &mut [Vec<isize>]) {
    let axis = random.within(0, extents.len() - 1);
    let operand = random.within(0, strides.len() - 1);
    match random.within(0, 6) {
        0 => {
            let by = random.pick(&[-1, 1]);
            strides[operand][axis] = strides[operand][axis].saturating_add(by);
        }
        1 if extents.len() < 64 => {
            extents.insert(axis, 1);
            for row in strides {
                let own = row[axis];
                let any = any_stride(random);
                row.insert(axis, random.pick(&[own, own, 0, any]));
            }
        }
        2 => extents[axis] = 0,
        3 => extents.swap(axis, 0),
        4 => {
            let other = random.within(0, extents.len() - 1);
            extents.swap(axis, other);
            strides.iter_mut().for_each(|row| row.swap(axis, other));
        }
        5 => {
            extents.reverse();
            strides.iter_mut().for_each(|row| row.reverse());
        }
        _ if extents.len() < 63 => {
            // Two axes along which every operand stands still.
            for _ in 0..2 {
                let bits = random.within(1, 20);
                extents.insert(axis, 1 << bits);
                strides.iter_mut().for_each(|row| row.insert(axis, 0));
            }
        }
        _ => {}
    }
}

/// An extent above 2^63 - 1 that is asked to join, or a product of extent and
/// stride above it.
fn fuse_above_signed(random: &mut Random) -> Layout {
    let zero = random.chance(1, 3);
    let extent = random.pick(&[1 << 63, (1 << 63) + 1, usize::MAX, 2, 3]);
    let stride = random.pick(&[0, 0, 1, 1 << 62, -(1 << 62), isize::MAX]);
    let mut extents = vec![extent, 1];
    let mut row = vec![stride, random.pick(&[0, 1, isize::MIN, isize::MAX])];
    if zero {
        let at = random.within(0, 2);
        extents.insert(at, 0);
        row.insert(at, any_stride(random));
    }
    let mut strides = vec![row];
    if random.chance(1, 2) {
        strides.push(vec![0; extents.len()]);
    }
    let sizes = strides.iter().map(|_| random.pick(&[0, 0, 1])).collect();
    finish(random, extents, sizes, strides)
}

/// Extents whose product is above 2^64 - 1 and that would join but for it.
fn fuse_above_unsigned(random: &mut Random) -> Layout {
    let operands = random.within(1, 3);
    let mut extents = vec![1 << 40, 1 << random.within(23, 25), random.within(1, 9)];
    let mut row = vec![0; 3];
    if random.chance(1, 3) {
        extents = vec![1 << 33, 1 << 31, 1 << 31];
        row = vec![1, 1 << 33, 0];
    }
    let at = random.within(0, 3);
    extents.insert(at, 0);
    row.insert(at, random.pick(&[0, 1]));
    let sizes = sizes(random, operands);
    finish(random, extents, sizes, vec![row; operands])
}

/// Strides that follow one another in memory, the axes taken in an order, with
/// `pad` elements after each.
fn packed(extents: &[usize], order: &[usize], first: usize, pad: usize) -> Vec<isize> {
    let mut row = vec![0; extents.len()];
    let mut next = first;
    for &axis in order {
        row[axis] = next.min(GREATEST) as isize;
        next = next
            .saturating_mul(extents[axis].max(1))
            .saturating_add(pad);
    }
    row
}

/// Layouts for cutting, declining and fitting.
fn block(random: &mut Random) -> Layout {
    match random.within(0, 9) {
        0..=1 => block_permuted(random, 2),
        2 => {
            let operands = random.within(1, 8);
            block_permuted(random, operands)
        }
        3..=4 => block_slabs(random),
        5..=7 => block_aliased(random),
        8 => block_far(random),
        _ => block_any(random),
    }
}

/// Extents with a total above 1,024, mostly below a million.
fn block_extents(random: &mut Random, rank: usize) -> Vec<usize> {
    let wanted = random.pick(&[2000, 5000, 20000, 100000, 1000000]);
    let mut extents = vec![2; rank];
    while extents.iter().product::<usize>() < wanted {
        let axis = random.within(0, rank - 1);
        extents[axis] = match random.within(0, 3) {
            0 => extents[axis] * 2,
            1 => extents[axis] + random.within(1, 30),
            _ => extents[axis] * 2 - random.within(0, 1),
        };
    }
    extents
}

/// Operands packed in different axis orders.
fn block_permuted(random: &mut Random, operands: usize) -> Layout {
    let rank = random.pick(&[2, 2, 2, 3, 3, 4, 5, 6, 8, 9, 10, 14]);
    let extents = block_extents(random, rank);
    let sizes = sizes(random, operands);
    let pad = random.pick(&[0, 0, 0, 1, 8]);
    let mut order: Vec<usize> = (0..rank).collect();
    let mut strides = Vec::new();
    for _ in 0..operands {
        let mut row = packed(&extents, &order, random.pick(&[1, 1, 1, 2, 8]), pad);
        for stride in &mut row {
            if random.chance(1, 12) {
                *stride = random.pick(&[0, -*stride, -*stride]);
            }
        }
        strides.push(row);
        if random.chance(1, 3) {
            order.reverse();
        } else {
            random.shuffle(&mut order);
        }
    }
    finish(random, extents, sizes, strides)
}

/// A first axis that every operand keeps, and a tail of slabs that share or do
/// not share lines.
fn block_slabs(random: &mut Random) -> Layout {
    let rank = random.pick(&[3, 3, 3, 4, 5, 11, 13]);
    let operands = random.pick(&[1, 2, 2, 2, 3]);
    let sizes = sizes(random, operands);
    let mut extents = block_extents(random, rank);
    let tidy = random.chance(2, 3);
    extents[0] = if tidy {
        64
    } else {
        random.pick(&[8, 16, 32, 64, 9, 33])
    };
    let mut order: Vec<usize> = (1..rank).collect();
    let mut strides = Vec::new();
    for _ in 0..operands {
        let unit = if tidy {
            64
        } else {
            random.pick(&[64, 128, 8, 65])
        };
        let pad = if tidy { 0 } else { random.pick(&[0, 64, 1]) };
        let mut row = packed(&extents, &order, unit, pad);
        row[0] = random.pick(&[1, 1, 1, 1, 1, -1, 2]);
        if random.chance(1, 10) {
            let axis = random.within(1, rank - 1);
            row[axis] = random.pick(&[0, 64, -row[axis]]);
        }
        strides.push(row);
        random.shuffle(&mut order);
    }
    finish(random, extents, sizes, strides)
}

/// Two operands, one with byte strides that are multiples of the way.
fn block_aliased(random: &mut Random) -> Layout {
    let rank = random.pick(&[2, 2, 3, 3, 4, 5]);
    let operands = random.pick(&[2, 2, 2, 2, 2, 3, 1]);
    let extents = block_extents(random, rank);
    let mut sizes = sizes(random, operands);
    let order: Vec<usize> = (0..rank).collect();
    let mut strides = Vec::new();
    for (operand, size) in sizes.iter().enumerate() {
        let mut row = packed(&extents, &order, 1, 0);
        if operand % 2 == 1 {
            let way = 4096 / (*size).clamp(1, 64);
            let last = random.within(0, rank - 1);
            for (axis, stride) in row.iter_mut().enumerate() {
                let many = random.within(1, 8);
                let multiple = (way * many) as isize;
                *stride = match random.within(0, 7) {
                    _ if axis == last => 1,
                    0 => random.within(0, 7) as isize,
                    1 => multiple / 2 + random.within(0, 1) as isize,
                    2 => -multiple,
                    _ => multiple,
                };
            }
        } else {
            for stride in &mut row {
                if random.chance(1, 8) {
                    *stride = 0;
                }
            }
        }
        strides.push(row);
    }
    if random.chance(1, 3) {
        strides.reverse();
        sizes.reverse();
    }
    let mut layout = finish(random, extents, sizes, strides);
    if random.chance(1, 2) {
        layout.purpose = Purpose::Pointwise;
        layout.chosen = Some(random.within(0, operands - 1));
    }
    layout
}

/// Operands whose steps are all farther than the block memory.
fn block_far(random: &mut Random) -> Layout {
    let rank = random.within(2, 4);
    let operands = random.within(1, 3);
    let extents = block_extents(random, rank);
    let sizes: Vec<usize> = (0..operands).map(|_| random.pick(&[1, 4, 8, 8])).collect();
    let mut order: Vec<usize> = (0..rank).collect();
    let mut strides = Vec::new();
    for &size in &sizes {
        // Just at or just above 32,768 bytes, or far above.
        let first = 32768 / size + random.pick(&[0, 1, 1, 500]);
        strides.push(packed(&extents, &order, first, 0));
        random.shuffle(&mut order);
    }
    finish(random, extents, sizes, strides)
}

/// Any extents and strides.
fn block_any(random: &mut Random) -> Layout {
    let rank = random.within(1, 6);
    let operands = random.within(1, 8);
    let mut extents = block_extents(random, rank);
    if random.chance(1, 12) {
        // Axes of the same stride: a region above 64 bits, a small reach.
        extents = vec![1 << random.within(28, 31), 1 << random.within(28, 31)];
    }
    let greatest = random.pick(&[8, 100, 1000, 1000000, 1 << 28]);
    let row = |random: &mut Random| {
        let stride = |_| match random.within(0, 9) {
            0 => 0,
            _ => signed(random, greatest, 4),
        };
        extents.iter().map(stride).collect()
    };
    let strides = (0..operands).map(|_| row(random)).collect();
    let sizes = sizes(random, operands);
    finish(random, extents, sizes, strides)
}

/// Broadcasts: beside axes with small costs one that nobody moves along, or only an
/// operand of size 0, so that its score may be the greatest.
fn still(random: &mut Random) -> Layout {
    let rank = random.pick(&[1, 2, 2, 2, 3, 3, 4, 8]);
    let operands = random.pick(&[1, 2, 2, 2, 3, 3, 7]);
    let mut extents = block_extents(random, rank);
    let mut sizes = sizes(random, operands);
    let mut order: Vec<usize> = (0..rank).collect();
    let mut strides = Vec::new();
    for _ in 0..operands {
        let mut row = packed(&extents, &order, random.pick(&[1, 1, 1, 2, 8]), 0);
        for stride in &mut row {
            if random.chance(1, 4) {
                *stride = random.pick(&[0, 0, -*stride]);
            }
        }
        strides.push(row);
        random.shuffle(&mut order);
    }
    let place = random.within(0, rank);
    extents.insert(place, random.pick(&[2, 33, 100, 1000, 3000]));
    for row in &mut strides {
        row.insert(place, 0);
    }
    if random.chance(1, 4) {
        let mut row = vec![0; rank + 1];
        row[place] = signed(random, 8, 4);
        sizes.push(0);
        strides.push(row);
    }
    finish(random, extents, sizes, strides)
}

/// Small captures with short walks, at all ranks.
fn small(random: &mut Random) -> Layout {
    let rank = match random.within(0, 5) {
        0..=3 => random.within(0, 6),
        4 => random.within(7, 12),
        _ => random.within(13, 64),
    };
    let operands = random.pick(&[1, 2, 2, 3, 4, 8]);
    let mut left = random.pick(&[30, 100, 1024, 3000]);
    let mut places: Vec<usize> = (0..rank).collect();
    random.shuffle(&mut places);
    let mut extents = vec![1; rank];
    for axis in places {
        extents[axis] = random.pick(&[1, 2, 2, 2, 3, 3, 4, 5, 7]).min(left.max(1));
        left /= extents[axis];
    }
    if rank > 0 && random.chance(1, 12) {
        let axis = random.within(0, rank - 1);
        extents[axis] = 0;
    }
    let sizes = sizes(random, operands);
    let mut order: Vec<usize> = (0..rank).collect();
    let mut strides = Vec::new();
    for _ in 0..operands {
        let mut row = packed(&extents, &order, 1, random.pick(&[0, 0, 0, 1]));
        for stride in &mut row {
            if random.chance(1, 8) {
                *stride = random.pick(&[0, -*stride, *stride + 1]);
            }
        }
        strides.push(row);
        if random.chance(1, 2) {
            random.shuffle(&mut order);
        }
    }
    finish(random, extents, sizes, strides)
}

/// Sizes of any 64 bits and strides up to row 6's limit: byte strides of one
/// word and of two, below a line and far above every cache, in one layout.
fn wide(random: &mut Random) -> Layout {
    let mut layout = match random.within(0, 7) {
        0 => small(random),
        1 => order(random),
        _ => block(random),
    };
    let Layout {
        extents,
        sizes,
        strides,
        ..
    } = &mut layout;
    for (size, row) in sizes.iter_mut().zip(strides) {
        match random.within(0, 4) {
            0 => {}
            // Every stride the same number of times as long.
            1 | 2 => {
                let most = GREATEST as u128 / reach(extents, row).max(1);
                let times = factor(random, most as usize);
                for stride in row.iter_mut() {
                    *stride = stride.saturating_mul(times);
                }
            }
            // Each stride another number of times, or not.
            _ => {
                let share = GREATEST / extents.len().max(1);
                for (stride, &extent) in row.iter_mut().zip(extents.iter()) {
                    let way = (extent as u128).max(2) * u128::from(stride.unsigned_abs() as u64);
                    if random.chance(1, 2) && way <= share as u128 {
                        *stride *= factor(random, share / (way as usize).max(1));
                    }
                }
            }
        }
        *size = match random.within(0, 7) {
            0..=2 => *size,
            3 => 1 << random.within(0, 63),
            4 => random.pick(&[1, 3, 7, 63]) << random.within(0, 58),
            5 => usize::MAX - random.magnitude(1 << 20),
            _ => random.magnitude(usize::MAX),
        };
    }
    layout
}

/// A number of 1 to `most`: often a power of two, which keeps multiples of the
/// line and of the way, or `most` itself.
fn factor(random: &mut Random, most: usize) -> isize {
    let most = most.clamp(1, GREATEST);
    let bits = (usize::BITS - 1 - most.leading_zeros()) as usize;
    let found = match random.within(0, 5) {
        0 => most,
        1 => random.magnitude(most).max(1),
        2 => 1 << random.within(0, bits),
        _ => 1 << random.within(bits.saturating_sub(12), bits),
    };
    found as isize
}

/// Each row of the refusal table that the text form can meet, at its limit and
/// one past it, at times with a higher row as well.
fn refuse(random: &mut Random) -> Layout {
    let past = random.within(0, 1);
    let mut layout = Layout {
        purpose: Purpose::Pointwise,
        chosen: None,
        extents: vec![2, 3],
        sizes: vec![8],
        strides: vec![vec![1, 2]],
    };
    match random.within(0, 5) {
        0 => {
            let rank = 64 + past;
            layout.extents = vec![1; rank];
            layout.strides = vec![(0..rank as isize).collect()];
        }
        1 => {
            let operands = random.pick(&[past, 8 + past, 9 * past]);
            layout.sizes = vec![4; operands];
            layout.strides = vec![vec![1, 2]; operands];
        }
        2 => {
            let operands = random.within(1, 8);
            layout.sizes = vec![4; operands];
            layout.strides = vec![vec![1, 2]; operands];
            let far = random.pick(&[operands, operands, 8, 64, usize::MAX]);
            layout.chosen = Some(if past == 1 {
                far.max(operands)
            } else {
                operands - 1
            });
            layout.purpose = random.pick(&[Purpose::Pointwise, Purpose::Fold]);
        }
        3 => refuse_total(random, &mut layout, past),
        4 => refuse_reach(random, &mut layout, past),
        _ => span_bytes(random, &mut layout, past),
    }
    if random.chance(1, 8) {
        // A zero extent lets rows 5 and 6 pass.
        let axis = random.within(0, layout.extents.len() - 1);
        layout.extents[axis] = 0;
    }
    if random.chance(1, 8) {
        // A higher row as well; the least number wins.
        if let Some(row) = layout.strides.last_mut() {
            row[0] = random.pick(&[isize::MIN, isize::MAX]);
        }
    }
    if random.chance(1, 8) {
        layout.chosen = Some(random.within(0, 9));
    }
    layout
}

/// Row 5: totals of 2^64 - 1 and of 2^64.
fn refuse_total(random: &mut Random, layout: &mut Layout, past: usize) {
    // The prime factors of 2^64 - 1.
    let mut factors = vec![3, 5, 17, 257, 641, 65537, 6700417];
    random.shuffle(&mut factors);
    while factors.len() > 1 && random.chance(4, 5) {
        let factor = factors.pop().expect("two or more");
        *factors.last_mut().expect("one or more") *= factor;
    }
    if past == 1 {
        let bits = random.within(1, 63);
        factors = vec![1 << bits, 1 << (64 - bits)];
    }
    layout.strides = vec![vec![0; factors.len()]];
    layout.extents = factors;
    layout.sizes = vec![random.pick(&[0, 1, 8])];
}

/// Row 6: reaches of 2^63 - 1 and of 2^63.
fn refuse_reach(random: &mut Random, layout: &mut Layout, past: usize) {
    let sign = random.pick(&[1, -1]);
    let (extents, row) = match random.within(0, 3) {
        0 if past == 1 => (vec![2], vec![isize::MIN]),
        0 => (vec![2], vec![sign * isize::MAX]),
        1 => (vec![(1 << 63) + past, 1], vec![sign, isize::MIN]),
        2 => (
            vec![2, 2],
            vec![1 << 62, sign * ((1 << 62) - 1 + past as isize)],
        ),
        _ => (vec![8, 2], vec![sign * (isize::MAX / 7), past as isize]),
    };
    layout.extents = extents;
    layout.strides = vec![vec![0; row.len()], row];
    layout.sizes = vec![random.pick(&[0, 1, 8]), random.pick(&[0, 0, 0, 1])];
    if random.chance(1, 2) {
        layout.strides.reverse();
        layout.sizes.reverse();
    }
}

/// Spans of 2^63 - 1 bytes or the last below it, and the first above it: the limit of row 7, which is given no longer.
fn span_bytes(random: &mut Random, layout: &mut Layout, past: usize) {
    let size = random.pick(&[1, 7, 8, 73, 1 << 20, GREATEST, usize::MAX]);
    // The greatest reach within it, or one more; none is at size 2^64 - 1.
    let reach = (GREATEST / size + past).saturating_sub(1).min(GREATEST);
    let sign = random.pick(&[1, -1]);
    let (extents, row) = match random.within(0, 2) {
        0 => (vec![2], vec![sign * reach as isize]),
        1 => (
            vec![2, 2],
            vec![sign * (reach / 2) as isize, (reach - reach / 2) as isize],
        ),
        _ => (vec![reach + 1, 1], vec![sign, any_stride(random)]),
    };
    layout.extents = extents;
    layout.strides = vec![row];
    layout.sizes = vec![size];
}

/// Walk requests with any block sizes and starts, ranks 0 to 10.
pub fn walk(random: &mut Random) -> Walk {
    let rank = random.within(0, 10);
    let operands = random.pick(&[1, 1, 2, 3, 8]);
    let mut left = random.pick(&[12, 40, 120]);
    let mut places: Vec<usize> = (0..rank).collect();
    random.shuffle(&mut places);
    let mut extents = vec![1; rank];
    for &axis in &places {
        extents[axis] = random.pick(&[1, 2, 2, 3, 3, 4, 5, 6, 9]).min(left.max(1));
        left /= extents[axis];
    }
    if rank > 0 && random.chance(1, 15) {
        extents[places[0]] = 0;
    }
    let size = |&extent: &usize| match random.within(0, 9) {
        0 => 0,
        1 => extent,
        2 => extent + random.within(1, 5),
        3 => usize::MAX,
        _ => random.within(1, extent.max(1)),
    };
    let blocks = extents.iter().map(size).collect();
    let row = |random: &mut Random| extents.iter().map(|_| signed(random, 1000, 3)).collect();
    let mut strides: Vec<Vec<isize>> = (0..operands).map(|_| row(random)).collect();
    let mut starts: Vec<isize> = (0..operands).map(|_| signed(random, 1 << 30, 2)).collect();
    // A start from which the walk just reaches a bound of 64 bits, or passes it.
    if random.chance(1, 10) && !extents.contains(&0) {
        let span: usize = extents
            .iter()
            .zip(&strides[0])
            .fold(0, |sum, (&extent, stride)| {
                sum + (extent - 1) * stride.unsigned_abs()
            });
        strides[0]
            .iter_mut()
            .for_each(|stride| *stride = stride.abs());
        starts[0] = isize::MAX - span as isize;
        if random.chance(1, 2) {
            strides[0].iter_mut().for_each(|stride| *stride = -*stride);
            starts[0] = isize::MIN + span as isize;
        }
        if random.chance(1, 4) {
            starts[0] = random.pick(&[isize::MAX, isize::MIN]);
        }
    }
    Walk {
        extents,
        blocks,
        starts,
        strides,
    }
}
