//! The recorded answers: fixed cases, the slow layouts and a seeded sample
//! that together reach every branch, with what the original answers to them.

use crate::answer::{answer, Limits};
use crate::branches::{branches, Branch};
use crate::generate::{self, Kind, Random};
use crate::layout::{read_all, Layout, Request, Walk};
use std::collections::BTreeMap;

/// How far a recorded answer goes.
pub const LIMITS: Limits = Limits {
    steps: 100_000,
    blocks: 64,
    walk: true,
    parts: false,
};

/// The layouts that the original is slow on.
pub const SLOW: &str = include_str!("../../slow.txt");

const FIXED_CASES: &str = include_str!("cases.txt");
const FIXED_WALKS: &str = include_str!("walks.txt");

/// Kind, seed, how many cases, and how many of them may be long.
const SAMPLES: [(Kind, u64, usize, usize); 7] = [
    (Kind::Order, 101, 66, 16),
    (Kind::Fuse, 102, 60, 2),
    (Kind::Block, 103, 110, 6),
    (Kind::Refuse, 104, 70, 2),
    (Kind::Small, 105, 50, 2),
    (Kind::Still, 107, 24, 2),
    (Kind::Wide, 108, 36, 2),
];
/// A case whose text is longer is a long one.
const LONG_CASE: usize = 2500;
/// A case whose text is longer is left out.
const TOO_LONG_CASE: usize = 24_000;
/// Cases that a sample seeks for each branch before it takes any.
const CASES_PER_BRANCH: usize = 4;
/// Candidates among which a sample seeks.
const CANDIDATES: usize = 3000;
/// Single steps of a candidate's cutting at most.
const CANDIDATE_STEPS: u64 = 20_000;

const WALK_SEED: u64 = 106;
const WALK_COUNT: usize = 92;

/// A recorded file and how often each of its branches is reached.
pub struct Recording {
    pub text: String,
    pub cases: usize,
    pub counts: Vec<(&'static str, usize)>,
}

impl Recording {
    /// The branches without a case.
    pub fn missing(&self) -> Vec<&'static str> {
        let unreached = self.counts.iter().filter(|(_, count)| *count == 0);
        unreached.map(|&(name, _)| name).collect()
    }
}

struct Case {
    comment: String,
    request: Request,
    answer: String,
}

impl Case {
    fn new(comment: String, request: Request) -> Case {
        let answer = answer(&request, &LIMITS);
        Case {
            comment,
            request,
            answer,
        }
    }

    fn text(&self) -> String {
        format!("{}\n{}{}", self.comment, self.request, self.answer)
    }
}

/// The requests of a text, each under the comment line right before it.
fn fixed(text: &str) -> Result<Vec<Case>, String> {
    let requests = read_all(text)?.into_iter();
    let case = |(comments, request): (Vec<String>, Request)| {
        let comment = comments.last().cloned().unwrap_or_default();
        Case::new(comment, request)
    };
    Ok(requests.map(case).collect())
}

/// A sample of a kind: first cases for branches that have few, then any.
fn sample(kind: Kind, seed: u64, count: usize, long: usize) -> Vec<Case> {
    let (name, _) = Kind::NAMES
        .iter()
        .find(|(_, known)| *known == kind)
        .expect("a named kind");
    let mut random = Random::new(seed);
    let mut reached: BTreeMap<Branch, usize> = BTreeMap::new();
    let mut long_left = long;
    let mut chosen: Vec<Case> = Vec::new();
    let mut rest: Vec<Layout> = Vec::new();
    for _ in 0..CANDIDATES {
        if chosen.len() == count {
            break;
        }
        let layout = generate::layout(&mut random, kind);
        let found = branches(&layout, CANDIDATE_STEPS);
        if found.contains(&Branch::CutCapped) {
            continue;
        }
        let few = |branch: &Branch| reached.get(branch).is_none_or(|&n| n < CASES_PER_BRANCH);
        if !found.iter().any(few) {
            rest.push(layout);
            continue;
        }
        let case = Case::new(format!("# {name}"), Request::Layout(layout));
        let length = case.text().len();
        if length > TOO_LONG_CASE || (length > LONG_CASE && long_left == 0) {
            continue;
        }
        long_left -= usize::from(length > LONG_CASE);
        found
            .into_iter()
            .for_each(|branch| *reached.entry(branch).or_default() += 1);
        chosen.push(case);
    }
    for layout in rest {
        if chosen.len() == count {
            break;
        }
        let case = Case::new(format!("# {name}"), Request::Layout(layout));
        if case.text().len() <= LONG_CASE {
            chosen.push(case);
        }
    }
    chosen
}

/// The file recorded/answers.txt.
pub fn answers() -> Result<Recording, String> {
    let mut cases = fixed(FIXED_CASES)?;
    cases.extend(fixed(SLOW)?);
    for (kind, seed, count, long) in SAMPLES {
        cases.extend(sample(kind, seed, count, long));
    }
    let mut reached: BTreeMap<Branch, usize> = BTreeMap::new();
    for case in &cases {
        if case.answer.starts_with("panic") {
            return Err(format!("the original panics on\n{}", case.text()));
        }
        if let Request::Layout(layout) = &case.request {
            let found = branches(layout, LIMITS.steps);
            found
                .into_iter()
                .for_each(|branch| *reached.entry(branch).or_default() += 1);
        }
    }
    let count = |&branch: &Branch| (branch.name(), reached.get(&branch).copied().unwrap_or(0));
    Ok(Recording {
        text: cases.iter().map(Case::text).collect(),
        cases: cases.len(),
        counts: Branch::ALL.iter().map(count).collect(),
    })
}

type WalkBranch = (&'static str, fn(&Walk, &str) -> bool);

/// What the walk requests have to show, each told from request and answer.
const WALK_BRANCHES: [WalkBranch; 24] = [
    ("rank 0", |walk, _| walk.extents.is_empty()),
    ("rank 1", |walk, _| walk.extents.len() == 1),
    ("rank 2", |walk, _| walk.extents.len() == 2),
    ("rank 3", |walk, _| walk.extents.len() == 3),
    ("rank 4", |walk, _| walk.extents.len() == 4),
    ("rank 5", |walk, _| walk.extents.len() == 5),
    ("rank 6", |walk, _| walk.extents.len() == 6),
    ("rank 7", |walk, _| walk.extents.len() == 7),
    ("rank 8", |walk, _| walk.extents.len() == 8),
    ("rank 9", |walk, _| walk.extents.len() == 9),
    ("rank 10", |walk, _| walk.extents.len() == 10),
    ("block of 0", |walk, _| walk.blocks.contains(&0)),
    ("block above the extent", |walk, _| {
        walk.blocks
            .iter()
            .zip(&walk.extents)
            .any(|(block, extent)| block > extent)
    }),
    ("two axes cut, ranks 1 to 8", |walk, _| {
        walk.extents.len() <= 8 && cut_axes(walk) > 1
    }),
    ("four axes cut, ranks 1 to 8", |walk, _| {
        walk.extents.len() <= 8 && cut_axes(walk) > 3
    }),
    ("two axes cut, rank 9 up", |walk, _| {
        walk.extents.len() > 8 && cut_axes(walk) > 1
    }),
    ("positive start", |walk, _| {
        walk.starts.iter().any(|&start| start > 0)
    }),
    ("negative start", |walk, _| {
        walk.starts.iter().any(|&start| start < 0)
    }),
    ("negative stride", |walk, _| {
        walk.strides.iter().flatten().any(|&stride| stride < 0)
    }),
    ("zero extent", |walk, _| walk.extents.contains(&0)),
    ("walk to an end", |_, answer| answer.contains("\nZ,")),
    ("refused by row 5", |_, answer| answer.starts_with("R,5\n")),
    ("refused by row 6", |_, answer| answer.starts_with("R,6\n")),
    ("refused by row 9", |_, answer| answer.starts_with("R,9\n")),
];

fn cut_axes(walk: &Walk) -> usize {
    let axes = walk.blocks.iter().zip(&walk.extents);
    axes.filter(|(&block, &extent)| block.max(1) < extent)
        .count()
}

/// The file recorded/walks.txt.
pub fn walks() -> Result<Recording, String> {
    let mut cases = fixed(FIXED_WALKS)?;
    let mut random = Random::new(WALK_SEED);
    for _ in 0..WALK_COUNT {
        let walk = generate::walk(&mut random);
        cases.push(Case::new("# walk".to_string(), Request::Walk(walk)));
    }
    let mut counts: Vec<(&str, usize)> = WALK_BRANCHES.iter().map(|(name, _)| (*name, 0)).collect();
    for case in &cases {
        if case.answer.starts_with("panic") {
            return Err(format!("the original panics on\n{}", case.text()));
        }
        if let Request::Walk(walk) = &case.request {
            for ((_, shows), (_, count)) in WALK_BRANCHES.iter().zip(&mut counts) {
                *count += usize::from(shows(walk, &case.answer));
            }
        }
    }
    Ok(Recording {
        text: cases.iter().map(Case::text).collect(),
        cases: cases.len(),
        counts,
    })
}
