//! Refusals 1 to 9: each alone at its bounds, their order, and that a refusal changes nothing.

mod common;

use common::{fresh, task};
use independent::entries::{Call, Given};
use independent::floor::{Floor, Maps};
use independent::host::Cart;
use independent::leg::Task;
use independent::wrong::Planner;

/// A lawful outing on a floor of 4 by 3, to be damaged.
#[derive(Clone)]
struct Outing {
    maps: Maps,
    task: Task,
    trail: usize,
    allowance: usize,
}

fn lawful() -> Outing {
    Outing { maps: fresh(&["....", ".#..", "...."], 11), task: task(0, 11, 3, 2), trail: 2, allowance: 2 }
}

/// The refusal of leg, host's leg and walk, which must be the same, and must leave everything as it was.
fn refusal(outing: &Outing) -> u8 {
    let trail = vec![7; outing.trail];
    let (maps, task) = (outing.maps.clone(), outing.task);
    let cart = Cart { cell: task.cart as u32, moves: 1, opened: 2, legs: 3 };
    let calls = [
        (Given::Leg { maps: maps.clone(), task, trail: trail.clone() }, 4),
        (Given::HostLeg { cart, maps: maps.clone(), task, trail: trail.clone() }, 4),
        (Given::Walk { maps, task, allowance: outing.allowance, trail }, 5),
    ];
    let mut numbers = Vec::new();
    for (given, results) in calls {
        let mut call = Call { given: given.clone(), result: vec![55; results] };
        let number = call.answer(&Planner::right());
        if number != 0 {
            let mut zeros_and_cart = vec![0; results];
            zeros_and_cart[1] = task.cart as u64;
            assert_eq!(call.result, zeros_and_cart, "the cart as given, and 0 for every other number");
            assert_eq!(call.given, given, "a refusal changes no lent memory");
        }
        numbers.push(number);
    }
    assert!(numbers.iter().all(|&number| number == numbers[0]), "leg, host's leg and walk: {:?}", numbers);
    numbers[0]
}

fn refused(number: u8, damage: impl Fn(&mut Outing)) {
    let mut outing = lawful();
    damage(&mut outing);
    assert_eq!(refusal(&outing), number);
}

#[test]
fn a_lawful_outing_is_accepted() {
    refused(0, |_| {});
}

#[test]
fn sizes() {
    for side in [0, 65, 1 << 16, (1 << 32) + 4, 1 << 63, usize::MAX] {
        refused(1, |outing| outing.maps.floor.width = side);
        refused(1, |outing| outing.maps.floor.height = side);
        refused(1, |outing| outing.maps.floor = Floor { width: side, height: side });
    }
}

#[test]
fn lengths() {
    for length in [0, 11, 13, 24, 12 + 65_536] {
        refused(2, |outing| outing.maps.plan.resize(length, 0));
        refused(2, |outing| outing.maps.known.resize(length, 0));
        refused(2, |outing| outing.maps.est.resize(length, 0));
    }
}

#[test]
fn cells() {
    for cell in [12, 4096, 65_536, u32::MAX as usize] {
        refused(3, |outing| outing.task.cart = cell);
        refused(3, |outing| outing.task.goal = cell);
    }
    refused(3, |outing| outing.task.goal = (1 << 32) + 11);
    refused(3, |outing| outing.task.goal = usize::MAX);
}

#[test]
fn settings() {
    for setting in [0, 4097, 65_537, (1 << 32) + 1, usize::MAX] {
        refused(4, |outing| outing.task.lookahead = setting);
        refused(4, |outing| outing.task.limit = setting);
    }
    for setting in [1, 4096] {
        refused(0, |outing| outing.task.lookahead = setting);
    }
}

#[test]
fn trails() {
    refused(5, |outing| outing.trail = 1);
    refused(5, |outing| outing.trail = 0);
    refused(0, |outing| outing.trail = 3);
}

/// A leg's trail is held against the limit, a walk's against the allowance alone.
#[test]
fn what_a_trail_is_held_against() {
    let planner = Planner::right();
    let outing = lawful();
    let long = Task { limit: 4096, ..outing.task };
    assert_eq!(planner.leg(&mut outing.maps.clone(), long, &mut [0; 4095]), Err(5));
    assert!(planner.leg(&mut outing.maps.clone(), long, &mut [0; 4096]).is_ok());
    assert!(planner.walk(&mut outing.maps.clone(), long, 3, &mut [0; 3]).is_ok());
    for allowance in [4, 1 << 16, (1 << 32) + 3, usize::MAX] {
        assert_eq!(planner.walk(&mut outing.maps.clone(), long, allowance, &mut [0; 3]), Err(5));
    }
}

/// The limit is tested as given, even with nothing left.
#[test]
fn a_walks_limit_is_tested_as_given() {
    let mut outing = lawful();
    outing.task.limit = 0;
    assert_eq!(Planner::right().walk(&mut outing.maps, outing.task, 0, &mut []), Err(4));
}

#[test]
fn bytes_and_blocks() {
    for byte in [2, 128, 255] {
        refused(6, |outing| outing.maps.plan[11] = byte);
        refused(6, |outing| outing.maps.known[11] = byte);
        refused(6, |outing| outing.maps.known[5] = byte);
    }
    refused(7, |outing| outing.maps.known[4] = 1);
    refused(7, |outing| outing.maps.known[0] = 1);
    refused(0, |outing| outing.maps.known[5] = 1);
    refused(8, |outing| outing.maps.plan[0] = 1);
}

#[test]
fn soundness() {
    // The goal's is 0, even where no pair breaks, and where the goal is known blocked.
    refused(9, |outing| outing.maps.est.iter_mut().for_each(|est| *est += 1));
    refused(9, |outing| {
        outing.maps.plan[11] = 1;
        outing.maps.known[11] = 1;
        outing.maps.est[11] = 1;
    });
    // Each is at most N-1, blocked cells' too; those are in no pair.
    let block_5 = |outing: &mut Outing, est| {
        outing.maps.known[5] = 1;
        outing.maps.est[5] = est;
    };
    refused(0, |outing| block_5(outing, 11));
    refused(0, |outing| block_5(outing, 0));
    refused(9, |outing| block_5(outing, 12));
    refused(9, |outing| block_5(outing, 65_535));
    // A pair that breaks, across and down, above and below; a cell blocked in the plan alone is in its pairs.
    refused(9, |outing| outing.maps.est[3] += 1);
    refused(9, |outing| outing.maps.est[8] += 1);
    refused(9, |outing| outing.maps.est[0] -= 3);
    refused(9, |outing| outing.maps.est[5] += 1);
    refused(0, |outing| outing.maps.est = vec![0; 12]);
}

/// Soundness is tested before sensing, which would take the pair out.
#[test]
fn soundness_by_the_known_map_as_given() {
    let mut maps = fresh(&[".#."], 2);
    maps.est = vec![0, 2, 0];
    assert_eq!(Planner::right().leg(&mut maps, task(0, 2, 1, 1), &mut [0]), Err(9));
    maps.known = vec![0, 1, 0];
    assert!(Planner::right().leg(&mut maps, task(0, 2, 1, 1), &mut [0]).is_ok());
}

/// Every two refusals together give the lower number.
#[test]
fn the_order() {
    let damage: [fn(&mut Outing); 9] = [
        |outing| outing.maps.floor.height = 0,
        |outing| outing.maps.known.truncate(11),
        |outing| outing.task.goal = 77_777,
        |outing| outing.task.lookahead = 0,
        |outing| outing.trail = 0,
        |outing| outing.maps.plan[7] = 2,
        |outing| outing.maps.known[4] = 1,
        |outing| outing.maps.plan[0] = 1,
        |outing| outing.maps.est[0] = 11,
    ];
    for first in 0..9 {
        for second in first..9 {
            refused(first as u8 + 1, |outing| {
                damage[first](outing);
                damage[second](outing);
            });
        }
    }
}

/// A cart on its goal is refused like any other.
#[test]
fn on_the_goal_too() {
    let on_goal = |outing: &mut Outing| outing.task.cart = 11;
    refused(0, on_goal);
    let damage: [fn(&mut Outing); 6] = [
        |outing| outing.task.limit = 0,
        |outing| outing.trail = 1,
        |outing| outing.maps.plan[0] = 2,
        |outing| outing.maps.known[0] = 1,
        |outing| outing.maps.plan[11] = 1,
        |outing| outing.maps.est[0] = 11,
    ];
    for (place, damage) in damage.iter().enumerate() {
        refused(place as u8 + 4, |outing| {
            on_goal(outing);
            damage(outing);
        });
    }
}

/// Prepare has 1, 2 for the estimates and 3 for the goal; required has 1 and 3.
#[test]
fn prepare_and_required() {
    let planner = Planner::right();
    let floor = |width, height| Floor { width, height };
    let mut est = vec![9; 12];
    for (number, width, goal, length) in
        [(1, 65, 99, 11), (1, 0, 0, 0), (2, 4, 99, 11), (2, 4, 0, 13), (3, 4, 12, 12), (3, 4, usize::MAX, 12)]
    {
        est.resize(length, 9);
        let before = est.clone();
        assert_eq!(planner.prepare(floor(width, 3), goal, &mut est), Err(number));
        assert_eq!(est, before);
    }
    est.resize(12, 9);
    assert_eq!(planner.prepare(floor(4, 3), 5, &mut est), Ok(()));
    assert_eq!(est, [2, 1, 2, 3, 1, 0, 1, 2, 2, 1, 2, 3]);
    assert_eq!(planner.required(floor(4, 3), 0, 11), Ok(5));
    assert_eq!(planner.required(floor(64, 64), 0, 4095), Ok(126));
    assert_eq!(planner.required(floor(4, 3), 12, 0), Err(3));
    assert_eq!(planner.required(floor(4, 3), 0, 12), Err(3));
    assert_eq!(planner.required(floor(65, 3), 0, 999), Err(1));
}
