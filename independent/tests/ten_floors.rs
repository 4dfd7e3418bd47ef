//! Cases A to J of document 01, with every figure that it gives.

mod common;

use common::{fresh, leg, task, walk};
use independent::leg::Ending::{self, Arrived, CutOff, Spent};
use independent::records::Record;
use independent::wrong::Planner;

struct Case {
    name: &'static str,
    rows: &'static [&'static str],
    /// start, goal, lookahead, limit, allowance
    given: [usize; 5],
    ending: Ending,
    /// cell, moves, legs, opened
    counts: [usize; 4],
    est: &'static [u16],
}

#[rustfmt::skip]
const CASES: [Case; 9] = [
    Case { name: "A", rows: &["."], given: [0, 0, 1, 1, 100], ending: Arrived, counts: [0, 0, 0, 0], est: &[0] },
    Case { name: "B", rows: &["...."], given: [0, 3, 1, 1, 100], ending: Arrived, counts: [3, 3, 3, 3], est: &[3, 2, 1, 0] },
    Case { name: "C", rows: &["...."], given: [0, 3, 2, 4096, 100], ending: Arrived, counts: [3, 3, 2, 3], est: &[3, 2, 1, 0] },
    Case { name: "D", rows: &["..", ".."], given: [0, 3, 1, 1, 100], ending: Arrived, counts: [3, 2, 2, 2], est: &[2, 1, 1, 0] },
    Case { name: "E", rows: &["..", ".."], given: [0, 3, 2, 4096, 100], ending: Arrived, counts: [3, 2, 1, 2], est: &[2, 1, 1, 0] },
    Case { name: "F", rows: &[".#.", "..."], given: [0, 2, 1, 1, 100], ending: Arrived, counts: [2, 4, 4, 4], est: &[4, 1, 0, 3, 2, 1] },
    Case { name: "G", rows: &["..#"], given: [0, 2, 2, 4096, 100], ending: CutOff, counts: [1, 1, 2, 4], est: &[2, 1, 0] },
    Case { name: "H", rows: &["...#."], given: [1, 4, 1, 1, 100], ending: CutOff, counts: [1, 2, 3, 3], est: &[4, 3, 4, 1, 0] },
    Case { name: "I", rows: &["...."], given: [0, 3, 1, 1, 2], ending: Spent, counts: [2, 2, 2, 2], est: &[3, 2, 1, 0] },
];

#[test]
fn a_to_i() {
    for case in &CASES {
        let [start, goal, lookahead, limit, allowance] = case.given;
        let mut maps = fresh(case.rows, goal);
        let (walk, _) = walk(&mut maps, task(start, goal, lookahead, limit), allowance).expect(case.name);
        assert_eq!(walk.ending, case.ending, "{}", case.name);
        assert_eq!([walk.cell, walk.moves, walk.legs.len(), walk.opened as usize], case.counts, "{}", case.name);
        assert_eq!(maps.est, case.est, "{}", case.name);
    }
}

#[test]
fn d_goes_by_cell_1() {
    let (_, trail) = walk(&mut fresh(&["..", ".."], 3), task(0, 3, 1, 1), 100).expect("accepted");
    assert_eq!(trail, [1, 3]);
}

#[test]
fn h_goes_on_at_the_bound_and_is_cut_off_above_it() {
    let mut maps = fresh(&["...#."], 4);
    assert_eq!(leg(&mut maps, task(1, 4, 1, 1)).expect("accepted").0.cell, 2);
    // The second leg opens the cart's cell alone, whose estimate becomes F = 4 = N-1.
    assert_eq!(leg(&mut maps, task(2, 4, 1, 1)).expect("accepted").0.cell, 1);
    assert_eq!(maps.est[2], 4);
    // The third has 5 by either neighbour: 1 + 4.
    assert_eq!(leg(&mut maps, task(1, 4, 1, 1)).expect("accepted").0.ending, CutOff);
    assert_eq!(maps.est, [4, 3, 4, 1, 0]);
}

#[test]
fn j_is_the_record_for_f() {
    let required = Planner::right().required(fresh(&[".#.", "..."], 2).floor, 0, 2).expect("accepted");
    let record = Record {
        serial: 65_535,
        cart: 7,
        start: 0,
        goal: 2,
        ending: 1,
        last: 2,
        moves: 4,
        required: required as u16,
        lookahead: 1,
        limit: 1,
    };
    let mut room = [0xAA; 24];
    assert_eq!(Planner::right().write(&record, &mut room), Ok(()));
    let bytes = "FF FF 07 00 00 00 02 00 01 00 02 00 04 00 00 00 02 00 01 00 01 00 00 00";
    let written: Vec<String> = room.iter().map(|byte| format!("{:02X}", byte)).collect();
    assert_eq!(written.join(" "), bytes);
    assert_eq!(Planner::right().read(&room, 0), Ok(record));
}
