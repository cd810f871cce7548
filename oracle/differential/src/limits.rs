//! The limits of the refusal table: which of them a layout lies at and is not
//! refused, and which it is one past and refused for.

use tools::layout::{reach, total, Layout, Purpose, Walk};

const GREATEST_SIGNED: u128 = i64::MAX as u128;
const GREATEST_UNSIGNED: u128 = u64::MAX as u128;

/// The limits of rows 1, 2, 5 and 6, as they are counted.
pub const WALK_LIMITS: [&str; 10] = [
    "limit: rank 64",
    "one past: rank 65",
    "limit: 1 operand",
    "one past: 0 operands",
    "limit: 8 operands",
    "one past: 9 operands",
    "limit: total 2^64 - 1",
    "one past: total 2^64",
    "limit: reach 2^63 - 1",
    "one past: reach 2^63",
];

/// The limits of row 4, and those of row 7, past which a layout is answered
/// since document 02's ask 6.
pub const LAYOUT_LIMITS: [&str; 4] = [
    "limit: the last operand chosen",
    "one past: the operand behind the last chosen",
    "row 7's limit: the longest reach for its size",
    "row 7's limit: a reach longer by 1 than for its size",
];

/// The limits that a layout lies at, or is one past.
pub fn limits(layout: &Layout, refusal: Option<u32>) -> Vec<&'static str> {
    let (extents, operands) = (&layout.extents, layout.strides.len());
    let zero = extents.contains(&0);
    let total = total(extents);
    let reaches: Vec<u128> = layout
        .strides
        .iter()
        .map(|row| reach(extents, row))
        .collect();
    let bytes = || layout.sizes.iter().map(|&size| size as u128).zip(&reaches);
    // Whether a reach longer by 1 is above what row 7 allowed, or one shorter is not.
    let longest = |(size, &reach): (u128, &u128)| {
        size * (2 + reach) > GREATEST_SIGNED && size * (1 + reach) <= GREATEST_SIGNED
    };
    let longer = |(size, &reach): (u128, &u128)| {
        size * (1 + reach) > GREATEST_SIGNED && size * reach <= GREATEST_SIGNED
    };
    let here = match refusal {
        None => vec![
            ("limit: rank 64", extents.len() == 64),
            ("limit: 1 operand", operands == 1),
            ("limit: 8 operands", operands == 8),
            ("limit: total 2^64 - 1", total == GREATEST_UNSIGNED),
            (
                "limit: reach 2^63 - 1",
                !zero && reaches.contains(&GREATEST_SIGNED),
            ),
            (
                "limit: the last operand chosen",
                layout.chosen == Some(operands - 1),
            ),
            (
                "row 7's limit: the longest reach for its size",
                !zero && bytes().any(longest),
            ),
            (
                "row 7's limit: a reach longer by 1 than for its size",
                !zero && bytes().any(longer),
            ),
        ],
        Some(1) => vec![("one past: rank 65", extents.len() == 65)],
        Some(2) => vec![
            ("one past: 0 operands", operands == 0),
            ("one past: 9 operands", operands == 9),
        ],
        Some(4) => vec![(
            "one past: the operand behind the last chosen",
            layout.chosen == Some(operands),
        )],
        Some(5) => vec![("one past: total 2^64", total == GREATEST_UNSIGNED + 1)],
        Some(6) => vec![(
            "one past: reach 2^63",
            reaches.contains(&(GREATEST_SIGNED + 1)),
        )],
        Some(_) => Vec::new(),
    };
    let met = here.into_iter().filter(|(_, here)| *here);
    met.map(|(name, _)| name).collect()
}

/// The same for a walk, which has no sizes and no chosen operand.
pub fn walk_limits(walk: &Walk) -> Vec<&'static str> {
    let layout = Layout {
        purpose: Purpose::Pointwise,
        chosen: None,
        extents: walk.extents.clone(),
        sizes: vec![0; walk.strides.len()],
        strides: walk.strides.clone(),
    };
    limits(&layout, walk.refusal())
}
