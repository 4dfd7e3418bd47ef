//! What the tests share: floors drawn as rows, and tasks.
#![allow(dead_code)]

use independent::floor::{Floor, Maps};
use independent::leg::{Leg, Task};
use independent::walk::Walk;
use independent::wrong::Planner;

/// The maps of a fresh cart on a floor drawn with `.` and `#`.
pub fn fresh(rows: &[&str], goal: usize) -> Maps {
    let floor = Floor { width: rows[0].len(), height: rows.len() };
    let plan = rows.concat().bytes().map(|byte| u8::from(byte == b'#')).collect();
    Maps::fresh(floor, plan, goal).expect("the floor and the goal are lawful")
}

pub fn task(cart: usize, goal: usize, lookahead: usize, limit: usize) -> Task {
    Task { cart, goal, lookahead, limit }
}

/// A walk with a trail as long as its allowance, and the part of the trail that it wrote.
pub fn walk(maps: &mut Maps, task: Task, allowance: usize) -> Result<(Walk, Vec<u16>), u8> {
    let mut trail = vec![9999; allowance];
    let walk = Planner::right().walk(maps, task, allowance, &mut trail)?;
    assert!(trail[walk.moves..].iter().all(|&entry| entry == 9999), "entries past the moves made are unchanged");
    trail.truncate(walk.moves);
    Ok((walk, trail))
}

/// A leg with a trail as long as its move limit, and the part of the trail that it wrote.
pub fn leg(maps: &mut Maps, task: Task) -> Result<(Leg, Vec<u16>), u8> {
    let mut trail = vec![9999; task.limit];
    let leg = Planner::right().leg(maps, task, &mut trail)?;
    assert!(trail[leg.moves..].iter().all(|&entry| entry == 9999), "entries past the moves made are unchanged");
    trail.truncate(leg.moves);
    Ok((leg, trail))
}
