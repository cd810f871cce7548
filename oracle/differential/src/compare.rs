//! What the comparisons share: the seeded layouts, values that have to be the
//! same, panics of the original, and counts for the report.

use std::cell::Cell;
use std::fmt::{Debug, Write as _};
use std::panic::{catch_unwind, set_hook, take_hook, AssertUnwindSafe};
use tools::generate::{layout, Kind, Random};
use tools::layout::Layout;

/// What is to be compared.
pub struct Task {
    pub seed: u64,
    /// Layouts of each kind.
    pub count: u64,
    pub kinds: Vec<(&'static str, Kind)>,
    /// Whether every branch has to be reached.
    pub whole: bool,
    /// Single steps of the original's cutting at most.
    pub steps: u64,
    /// Blocks of a walk at most.
    pub blocks: usize,
}

impl Task {
    /// Hands every layout of a kind to a comparison, with its turn and a sequence
    /// for what is drawn besides. The layout is told with the first difference.
    pub fn layouts(
        &self,
        kind: Kind,
        mut compare: impl FnMut(u64, &Layout, &mut Random) -> Result<(), String>,
    ) -> Result<(), String> {
        let mut random = Random::new(self.seed);
        let mut besides = Random::new(!self.seed);
        for turn in 0..self.count {
            let layout = layout(&mut random, kind);
            compare(turn, &layout, &mut besides).map_err(|error| format!("{error}\n{layout}"))?;
        }
        Ok(())
    }
}

/// Fails with both values unless they are equal.
pub fn same<T: PartialEq + Debug>(what: &str, port: T, original: T) -> Result<(), String> {
    if port == original {
        return Ok(());
    }
    Err(format!("{what}: {port:?}, not {original:?}"))
}

/// Fails with the first place where two arrays differ.
pub fn same_array<T: PartialEq + Debug>(
    what: &str,
    port: &[T],
    original: &[T],
) -> Result<(), String> {
    if port == original {
        return Ok(());
    }
    let both = port.iter().zip(original).enumerate();
    for (place, (port, original)) in both {
        same(&format!("{what}, place {place}"), port, original)?;
    }
    same(&format!("{what}, places"), port.len(), original.len())
}

thread_local! {
    static CAUGHT: Cell<bool> = const { Cell::new(false) };
}

/// What the original answers; its panic is a difference, without a message of its
/// own.
pub fn caught<T>(run: impl FnOnce() -> T) -> Result<T, String> {
    CAUGHT.set(true);
    let answer = catch_unwind(AssertUnwindSafe(run));
    CAUGHT.set(false);
    answer.map_err(|_| "the original panics".to_string())
}

/// Keeps panics of the original off standard error.
pub fn silence_caught_panics() {
    let told = take_hook();
    set_hook(Box::new(move |panic| {
        if !CAUGHT.get() {
            told(panic);
        }
    }));
}

/// How often each of some named things was met, in the order of the names.
pub struct Counts(Vec<(&'static str, u64)>);

impl Counts {
    pub fn of(names: impl IntoIterator<Item = &'static str>) -> Counts {
        Counts(names.into_iter().map(|name| (name, 0)).collect())
    }

    pub fn add(&mut self, name: &str) {
        self.add_many(name, 1);
    }

    pub fn add_many(&mut self, name: &str, many: u64) {
        let found = self.0.iter_mut().find(|(known, _)| *known == name);
        found.unwrap_or_else(|| panic!("no count {name:?}")).1 += many;
    }

    /// Adds to the count at a place of the names.
    pub fn add_at(&mut self, place: usize) {
        self.0[place].1 += 1;
    }

    /// Appends a line for each name.
    pub fn tell(&self, report: &mut String) {
        for (name, count) in &self.0 {
            writeln!(report, "{count:10}  {name}").expect("a String takes all");
        }
    }

    /// Fails if this name was never met.
    pub fn require_one(&self, subject: &str, name: &str) -> Result<(), String> {
        let met = self
            .0
            .iter()
            .any(|&(known, count)| known == name && count > 0);
        let unmet = format!("{subject}: the same, but never met: {name}");
        met.then_some(()).ok_or(unmet)
    }

    /// Fails if a name was never met, but for some.
    pub fn require(&self, subject: &str, but: &[&str]) -> Result<(), String> {
        let unmet = self.0.iter().filter(|(_, count)| *count == 0);
        let unmet = unmet.map(|&(name, _)| name);
        let unmet: Vec<&str> = unmet.filter(|name| !but.contains(name)).collect();
        if unmet.is_empty() {
            return Ok(());
        }
        let unmet = unmet.join("; ");
        Err(format!(
            "{subject}: the same, but never met: {unmet} (--count gives more layouts)"
        ))
    }
}
