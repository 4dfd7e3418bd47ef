//! Where the document can be read in two ways: the readings that are held, each by an example that the other reading fails.
//! Those on refusals, records and the printer stand with their tests.

mod common;

use common::{fresh, leg, task, walk};
use independent::host::Cart;
use independent::leg::Ending::{Arrived, CutOff, Spent, UnderWay};
use independent::leg::Leg;
use independent::wrong::Planner;

/// Step a senses nothing.
#[test]
fn on_the_goal_nothing_is_sensed() {
    let mut maps = fresh(&[".#"], 0);
    let (leg, _) = leg(&mut maps, task(0, 0, 1, 1)).expect("accepted");
    assert_eq!(leg, Leg { ending: Arrived, cell: 0, moves: 0, opened: 0 });
    assert_eq!(maps, fresh(&[".#"], 0));
}

/// On one cell only an estimate of 0 is sound.
#[test]
fn one_cell() {
    let mut maps = fresh(&["."], 0);
    assert_eq!(leg(&mut maps, task(0, 0, 1, 1)).map(|(leg, _)| leg.ending), Ok(Arrived));
    maps.est = vec![1];
    assert_eq!(leg(&mut maps, task(0, 0, 1, 1)), Err(9));
}

/// With the frontier empty just as the lookahead is used up there is no target; its opened cells are reported.
#[test]
fn an_empty_frontier_and_a_used_up_lookahead() {
    for lookahead in [2, 3] {
        let mut maps = fresh(&["..#."], 3);
        let (first, trail) = leg(&mut maps, task(0, 3, 1, 1)).expect("accepted");
        assert_eq!((first.ending, trail), (UnderWay, vec![1]));
        let (second, _) = leg(&mut maps, task(1, 3, lookahead, 1)).expect("accepted");
        assert_eq!(second, Leg { ending: CutOff, cell: 1, moves: 0, opened: 2 });
    }
}

/// The lookahead used up with the goal next names the same target, and the leg arrives.
#[test]
fn a_used_up_lookahead_with_the_goal_next() {
    let (leg, _) = leg(&mut fresh(&["..."], 2), task(0, 2, 2, 4096)).expect("accepted");
    assert_eq!(leg, Leg { ending: Arrived, cell: 2, moves: 2, opened: 2 });
}

/// A lookahead larger than the floor is nothing special.
#[test]
fn a_lookahead_larger_than_the_floor() {
    let (one, many) = (task(0, 2, 3, 9), task(0, 2, 4096, 9));
    let (mut maps, mut same) = (fresh(&["..."], 2), fresh(&["..."], 2));
    assert_eq!(leg(&mut maps, one), leg(&mut same, many));
    assert_eq!(maps, same);
}

/// A cut-off leg leaves estimates, cart and trail; what it sensed stays; walk and host count it.
#[test]
fn a_cut_off_leg() {
    let mut maps = fresh(&[".#."], 2);
    let before = maps.est.clone();
    let (walk, trail) = walk(&mut maps, task(0, 2, 5, 5), 50).expect("accepted");
    assert_eq!((walk.ending, walk.cell, walk.moves, walk.legs.len(), walk.opened), (CutOff, 0, 0, 1, 1));
    assert_eq!((maps.known, maps.est, trail), (vec![0, 1, 0], before, vec![]));
    let mut cart = Cart::default();
    let leg = Planner::right().host_leg(&mut cart, &mut fresh(&[".#."], 2), task(0, 2, 5, 5), &mut [0; 5]);
    assert_eq!(leg, Ok(Leg { ending: CutOff, cell: 0, moves: 0, opened: 1 }));
    assert_eq!(cart, Cart { cell: 0, moves: 0, opened: 1, legs: 1 });
}

/// The cart stops when a cell ahead is now known blocked. Here it sees from cell 1 that cell 2 is.
#[test]
fn the_look_ahead() {
    let mut maps = fresh(&["..#.", "...."], 3);
    let (leg, trail) = leg(&mut maps, task(0, 3, 4096, 4096)).expect("accepted");
    assert_eq!((leg.ending, leg.cell, leg.moves, trail), (UnderWay, 1, 1, vec![1]));
    assert_eq!(maps.known, [0, 0, 1, 0, 0, 0, 0, 0]);
}

/// The cart senses after its last move too, on the goal and at the move limit.
#[test]
fn sensing_after_the_last_move() {
    let mut maps = fresh(&["..#"], 1);
    assert_eq!(leg(&mut maps, task(0, 1, 1, 1)).map(|(leg, _)| leg.ending), Ok(Arrived));
    assert_eq!(maps.known, [0, 0, 1]);
    let mut maps = fresh(&["....", ".#.."], 3);
    assert_eq!(leg(&mut maps, task(0, 3, 9, 1)).map(|(leg, _)| leg.ending), Ok(UnderWay));
    assert_eq!(maps.known, [0, 0, 0, 0, 0, 1, 0, 0]);
}

/// On the goal the host's total of legs that searched doesn't rise.
#[test]
fn the_host_on_the_goal() {
    let before = Cart { cell: 1, moves: 5, opened: 6, legs: 7 };
    let mut cart = before;
    let leg = Planner::right().host_leg(&mut cart, &mut fresh(&[".."], 1), task(99, 1, 1, 1), &mut [0]);
    assert_eq!(leg, Ok(Leg { ending: Arrived, cell: 1, moves: 0, opened: 0 }));
    assert_eq!(cart, before);
}

#[test]
fn the_hosts_totals() {
    let mut cart = Cart { cell: 0, moves: 10, opened: u32::MAX - 1, legs: u32::MAX };
    let leg = Planner::right().host_leg(&mut cart, &mut fresh(&["....."], 4), task(99, 4, 3, 9), &mut [0; 9]);
    assert_eq!(leg, Ok(Leg { ending: UnderWay, cell: 3, moves: 3, opened: 3 }));
    assert_eq!(cart, Cart { cell: 3, moves: 13, opened: u32::MAX, legs: u32::MAX });
}

/// The goal comes before the allowance, and with none left nothing is sensed.
#[test]
fn goal_before_allowance() {
    let ending = |cart, allowance| walk(&mut fresh(&["..."], 2), task(cart, 2, 1, 1), allowance).map(|(walk, _)| walk.ending);
    assert_eq!(ending(2, 0), Ok(Arrived));
    assert_eq!(ending(0, 2), Ok(Arrived));
    assert_eq!(ending(0, 1), Ok(Spent));
    let mut maps = fresh(&[".#."], 2);
    let (walk, _) = walk(&mut maps, task(0, 2, 1, 1), 0).expect("accepted");
    assert_eq!((walk.ending, walk.cell, walk.moves, walk.legs.len(), walk.opened), (Spent, 0, 0, 0, 0));
    assert_eq!(maps, fresh(&[".#."], 2));
}

/// A walk's leg gets the smaller of the move limit and the moves left, and the part of the trail not yet written.
#[test]
fn the_legs_of_a_walk() {
    let mut maps = fresh(&["........"], 7);
    let (walk, trail) = walk(&mut maps, task(0, 7, 3, 2), 5).expect("accepted");
    let moves: Vec<usize> = walk.legs.iter().map(|leg| leg.moves).collect();
    assert_eq!((walk.ending, moves, trail), (Spent, vec![2, 2, 1], vec![1, 2, 3, 4, 5]));
}

/// Ties: the larger g, then the lower cell number. Opening order shows in the target.
#[test]
fn ties() {
    // From the middle of an open floor all four neighbours have the same sum but two; the lower cell is taken.
    let (leg, trail) = leg(&mut fresh(&["...", "...", "..."], 8), task(4, 8, 1, 1)).expect("accepted");
    assert_eq!((leg.cell, trail), (5, vec![5]));
    // After 0 and 1 are opened, 2 (g 2) and 3 (g 1) have equal sums: the larger g is the target.
    let (leg, _) = common::leg(&mut fresh(&["...", "..."], 5), task(0, 5, 2, 9)).expect("accepted");
    assert_eq!((leg.cell, leg.opened), (2, 2));
}

/// Easy error 2 has a case: a frontier cell keeps its estimate, though F minus its g is less.
#[test]
fn frontier_cells_keep_their_estimates() {
    let mut maps = fresh(&["....."], 4);
    leg(&mut maps, task(2, 4, 1, 1)).expect("accepted");
    assert_eq!(maps.est, [4, 3, 2, 1, 0]);
}

/// What a cart learned serves its next trip: a walk doesn't prepare estimates again.
#[test]
fn what_was_learned_stays() {
    let mut maps = fresh(&[".#.", "..."], 2);
    assert_eq!(walk(&mut maps, task(0, 2, 1, 1), 100).map(|(walk, _)| walk.moves), Ok(4));
    assert_eq!(maps.est[0], 4);
    let (again, _) = walk(&mut maps, task(0, 2, 1, 1), 100).expect("accepted");
    assert_eq!((again.moves, maps.est[0]), (4, 4));
}
