//! Runs: lists of steps from fresh starts and from other readable configurations, in either cabinet.
//! Together they meet every number, every kind of accepted step and every row of the rules.

use library::cabinet::Cabinet;
use library::compare::Comparison;
use library::counts::{Wanted, ACTORS};
use library::memory::Plain;
use library::outputs::NAMES;
use library::walk::{class, walk};
use reference::coverage::Coverage;
use reference::generate::run::Origin;

/// Rows that no step on a readable configuration meets.
const OTHER_CALLS: &[&str] = &["refused 1", "refused 11", "refused 12"];

#[test]
fn runs_answer_and_write_alike() {
    runs(Cabinet::Large);
}

#[test]
fn runs_in_the_small_cabinet_answer_and_write_alike() {
    runs(Cabinet::Small);
}

fn runs(cabinet: Cabinet) {
    let mut comparison = Comparison::new(cabinet, Plain::default());
    let mut coverage = Coverage::default();
    let plan = [
        (Origin::Fresh, 1500, 60),
        (Origin::Growing, 16, 160),
        (Origin::Readable, 2500, 20),
        (Origin::Renumbered, 400, 20),
    ];
    for (origin, seeds, steps) in plan {
        for seed in 0..seeds {
            walk(&mut comparison, &mut coverage, (origin, seed), steps);
        }
    }
    comparison.report(
        "runs",
        Wanted {
            calls: 200_000,
            step: &[0, 2, 3, 4, 5, 6, 7, 8, 9, 10],
            start: &[0, 11],
            readable: &[0],
            ends: &[0, 12],
            pending: &[0, 2],
            kinds: ACTORS,
            classes: &plan.map(|(origin, _, _)| class(origin)),
            outputs: &NAMES,
            processes: &["found", "empty"],
        },
    );
    assert_eq!(coverage.missing(), OTHER_CALLS, "rows of the rules that were not met");
}
