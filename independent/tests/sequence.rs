//! What the comparison stands on: a seed decides its calls, and each wrong planner can be named.

use independent::cases::call;
use independent::wrong::{Planner, ALL};

#[test]
fn a_seed_decides_its_calls() {
    let calls = |seed| -> Vec<_> { (0..100).map(|number| call(seed, number)).collect() };
    let (calls_of_4, calls_of_5) = (calls(4), calls(5));
    assert_eq!(calls_of_4, calls(4));
    for number in 1..100 {
        assert_ne!(calls_of_4[number], calls_of_5[number]);
        assert_ne!(calls_of_4[number], calls_of_4[number - 1]);
    }
}

#[test]
fn names_of_wrong_planners() {
    let mut names: Vec<&str> = ALL.iter().map(|entry| entry.1).collect();
    names.push("nothing");
    assert!(names.iter().all(|name| Planner::named(name).is_some() && !name.contains(' ')));
    assert!(Planner::named("no such planner").is_none());
    let count = names.len();
    names.sort_unstable();
    names.dedup();
    assert_eq!(names.len(), count, "two planners have one name");
}
