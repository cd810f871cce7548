//! Sessions: `gougelily_join_session` and `gougelily_leave_session` beside two
//! plannings, of the layout before the call and of the one after it. That is what
//! each of them works out: row 10 by the layout before, the result by the one
//! after. The original has no counterpart.

use crate::layouts;
use crate::planning::empty_plan;
use port::gougelily::{self, Plan, Session};
use port::Flat;
use std::hint::black_box;
use std::time::Instant;

/// How long a short run takes, about.
const SHORT_NS: f64 = 60_000.0;

/// A layout's times. Its last operand joins and leaves.
pub struct Row {
    pub name: String,
    /// How many operands there are when it has joined.
    pub operands: usize,
    /// Both layouts planned.
    pub plannings: f64,
    pub join: f64,
    pub leave: f64,
}

/// A layout with its last operand and without it, and a session of the latter.
struct Case {
    with: Flat,
    without: Flat,
    size: u64,
    strides: Vec<i64>,
    session: Session,
    plan: Plan,
}

impl Case {
    fn of(with: Flat) -> Case {
        let mut without = with.clone();
        let size = without.sizes.pop().expect("there is an operand");
        let kept = without.extents.len() * without.sizes.len();
        let strides = without.strides.split_off(kept);
        let mut session = Session::none();
        assert_eq!(gougelily::begin_session(&without, &mut session), 0);
        Case {
            with,
            without,
            size,
            strides,
            session,
            plan: empty_plan(),
        }
    }

    fn plannings(&mut self) {
        for layout in [&self.without, &self.with] {
            let answer = gougelily::plan(black_box(layout), &mut self.plan);
            assert_eq!(answer, 0, "the layouts are served");
        }
    }

    fn join(&mut self) {
        let session = black_box(&mut self.session);
        let answer = gougelily::join_session(session, self.size, &self.strides);
        assert_eq!(answer, 0, "the operand joins");
    }

    fn leave(&mut self) {
        let last = self.without.sizes.len() as u64;
        let answer = gougelily::leave_session(black_box(&mut self.session), last);
        assert_eq!(answer, 0, "the operand leaves");
    }

    /// An operand that joined is one that was there from the beginning.
    fn compare(&mut self) {
        let mut afresh = Session::none();
        assert_eq!(gougelily::begin_session(&self.with, &mut afresh), 0);
        self.join();
        assert!(self.session == afresh, "another session");
        self.leave();
    }

    /// The mean times of the plannings, of a join and of a leave, in turn.
    fn short_run(&mut self, calls: usize) -> [f64; 3] {
        let mut sums = [0.0; 3];
        for _ in 0..calls {
            let parts = [Case::plannings, Case::join, Case::leave];
            for (sum, part) in sums.iter_mut().zip(parts) {
                let start = Instant::now();
                part(self);
                *sum += start.elapsed().as_nanos() as f64;
            }
        }
        sums.map(|sum| sum / calls as f64)
    }
}

pub fn times(runs: u64) -> Vec<Row> {
    let mut found = Vec::new();
    for named in layouts::sessions() {
        let mut case = Case::of(Flat::of(&named.layout));
        case.compare();
        let once: f64 = case.short_run(3).iter().sum();
        let calls = ((SHORT_NS / once) as usize).clamp(1, 200);
        let mut best = [f64::INFINITY; 3];
        for _ in 0..runs {
            for (least, time) in best.iter_mut().zip(case.short_run(calls)) {
                *least = least.min(time);
            }
        }
        let [plannings, join, leave] = best;
        found.push(Row {
            name: named.name,
            operands: case.with.sizes.len(),
            plannings,
            join,
            leave,
        });
    }
    found
}
