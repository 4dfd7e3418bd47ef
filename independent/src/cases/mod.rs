//! Calls made at random: lawful ones and damaged ones, of every entry. The same seed and number always give the same call. `texts`
//! makes what the trip printer is given.

pub mod damage;
pub mod plans;
pub mod record_files;
pub mod rng;
pub mod scenes;
pub mod texts;

use crate::entries::{Call, Given, ENTRIES};
use crate::host::Cart;
use crate::leg::Task;
use crate::wrong::Planner;
use damage::Outing;
use rng::Rng;
use scenes::Scene;

/// A walk may cost this much: cells opened, times N. A planner that looks through all cells to find the next one pays that much.
const MOST_WORK: u64 = 16_000_000;

/// The call of this number in the sequence that belongs to a seed.
pub fn call(seed: u64, number: u64) -> Call {
    let mut rng = Rng::new(seed, number);
    let given = match rng.below(100) {
        0..=5 => prepare(&mut rng),
        6..=11 => required(&mut rng),
        12..=46 => leg(&mut rng),
        47..=62 => host_leg(&mut rng),
        63..=79 => walk(&mut rng),
        80..=86 => record_files::write(&mut rng),
        87..=92 => record_files::count(&mut rng),
        _ => record_files::read(&mut rng),
    };
    let mut call = Call { given, result: vec![] };
    // So that a number left unwritten is seen, the result array starts with arbitrary ones.
    call.result = (0..ENTRIES[call.entry()].results).map(|_| rng.any()).collect();
    call
}

fn prepare(rng: &mut Rng) -> Given {
    let floor = scenes::sizes(rng);
    let goal = rng.below(floor.cells());
    let est = (0..floor.cells()).map(|_| rng.any() as u16).collect();
    let mut given = (floor, goal, est);
    for fault in damage::some(rng, &[1, 2, 3]) {
        match fault {
            1 => damage::side(rng, &mut given.0),
            2 => damage::length(rng, &mut given.2),
            _ => given.1 = damage::cell(rng, given.1, floor.cells()),
        }
    }
    Given::Prepare { floor: given.0, goal: given.1, est: given.2 }
}

fn required(rng: &mut Rng) -> Given {
    let mut floor = scenes::sizes(rng);
    let n = floor.cells();
    let (mut start, mut goal) = (rng.below(n), rng.below(n));
    for fault in damage::some(rng, &[1, 3]) {
        match fault {
            1 => damage::side(rng, &mut floor),
            _ if rng.chance(50) => start = damage::cell(rng, start, n),
            _ => goal = damage::cell(rng, goal, n),
        }
    }
    Given::Required { floor, start, goal }
}

fn leg(rng: &mut Rng) -> Given {
    let outing = outing(rng, false);
    Given::Leg { maps: outing.maps, task: outing.task, trail: outing.trail }
}

fn host_leg(rng: &mut Rng) -> Given {
    let outing = outing(rng, false);
    let total = |rng: &mut Rng| match rng.below(4) {
        0 => 0,
        1 => rng.below(100_000) as u32,
        // At the largest total, or a leg's worth of moves or cells below it.
        _ => u32::MAX - rng.below(6) as u32,
    };
    let cell = u32::try_from(outing.task.cart).unwrap_or(u32::MAX);
    let cart = Cart { cell, moves: total(rng), opened: total(rng), legs: total(rng) };
    Given::HostLeg { cart, maps: outing.maps, task: outing.task, trail: outing.trail }
}

fn walk(rng: &mut Rng) -> Given {
    let outing = outing(rng, true);
    Given::Walk { maps: outing.maps, task: outing.task, allowance: outing.moves, trail: outing.trail }
}

/// What a leg or walk is given: a scene, settings and a trail, in near half of the calls damaged.
fn outing(rng: &mut Rng, walk: bool) -> Outing {
    let scene = scenes::scene(rng);
    let n = scene.maps.floor.cells();
    let mut task = Task { cart: scene.cart, goal: scene.goal, lookahead: setting(rng, n), limit: setting(rng, n) };
    if rng.chance(8) {
        // Without a way to the goal the lookahead is used up just as the frontier empties.
        task.lookahead = scenes::cells_in_reach(&scene);
    }
    let moves = if walk { affordable(&scene, &task, allowance(rng, n)) } else { task.limit };
    let more = if rng.chance(50) { 0 } else { rng.below(9) };
    let trail = (0..moves + more).map(|_| rng.any() as u16).collect();
    let mut outing = Outing { maps: scene.maps, task, moves, trail };
    // Soundness can break in more ways than the others.
    let faults = damage::some(rng, &[1, 2, 3, 4, 5, 6, 7, 8, 9, 9, 9]);
    // Contents are damaged before lengths and sizes.
    for fault in faults.iter().rev() {
        damage::spoil(rng, &mut outing, *fault, walk);
    }
    outing
}

/// A lawful lookahead or move limit.
pub fn setting(rng: &mut Rng, n: usize) -> usize {
    match rng.below(10) {
        0 | 1 => 1,
        2..=4 => rng.between(2, 9),
        5 | 6 => rng.between(1, n),
        7 => n.min(4095) + 1,
        8 => rng.between(1, 4096),
        _ => 4096,
    }
}

fn allowance(rng: &mut Rng, n: usize) -> usize {
    match rng.below(10) {
        0 => 0,
        1..=3 => rng.between(1, 6),
        4..=6 => rng.between(1, 2 * n),
        7 | 8 => rng.between(n, 16 * n).min(16_384),
        _ => 16_384,
    }
}

/// The allowance, or a smaller one with which the walk isn't too much work.
fn affordable(scene: &Scene, task: &Task, allowance: usize) -> usize {
    let mut allowance = allowance;
    loop {
        let mut maps = scene.maps.clone();
        let walk = Planner::right().walk(&mut maps, *task, allowance, &mut vec![0; allowance]);
        let opened = walk.map_or(0, |walk| walk.opened);
        if opened * (maps.floor.cells() as u64) <= MOST_WORK {
            return allowance;
        }
        allowance /= 4;
    }
}
