//! Every layout of slow.txt is legal and hits the cap on single steps, also a
//! cap of a million.

mod common;

use tools::answer::{answer, Limits};
use tools::layout::{read_all, Request};
use tools::record::SLOW;

#[test]
fn slow_layouts_hit_the_cap() {
    let slow = read_all(SLOW).expect("slow.txt is in the text form");
    assert!(slow.len() >= 8, "{}", slow.len());
    for (comments, request) in slow {
        assert!(!comments.is_empty(), "no comment before\n{request}");
        let Request::Layout(layout) = &request else {
            panic!("no layout:\n{request}");
        };
        assert_eq!(layout.refusal(), None, "{request}");
        for steps in [100_000, 1_000_000] {
            let limits = Limits {
                steps,
                ..Limits::default()
            };
            let text = answer(&request, &limits);
            assert!(
                text.ends_with(&format!("\ncap,{steps}\n.\n")),
                "{request}{text}"
            );
        }
    }
}

#[test]
fn the_program_caps_by_default_at_100000() {
    let outcome = common::oracle(&[], SLOW);
    assert_eq!(outcome.status, Some(0), "{}", outcome.message);
    let caps = outcome.output.matches("\ncap,100000\n.\n").count();
    assert_eq!(
        caps,
        SLOW.lines().filter(|line| line.starts_with("L,")).count()
    );
    assert_eq!(outcome.output.matches("\nK,").count(), 0);
}

#[test]
fn a_cap_of_just_the_steps_lets_the_plan_through() {
    // A region of 70,144: a halving, then 1 taken off a few times.
    let layout = "L,P,2,2,-\nE,65,64\nO,8,1,65\nO,8,64,1\n";
    let outcome = |steps: &str| common::oracle(&["--no-walk", "--steps", steps], layout).output;
    let needed = (0..10)
        .find(|steps| outcome(&steps.to_string()).contains("\nK,2\n"))
        .expect("a few steps are enough");
    assert!(needed > 1, "{needed}");
    let fewer = (needed - 1).to_string();
    assert!(outcome(&fewer).ends_with(&format!("\ncap,{fewer}\n.\n")));
}
