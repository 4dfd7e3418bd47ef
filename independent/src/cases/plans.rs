//! Plans of many kinds: open, scattered, mazes, rooms, racks with dead ends, goals walled off.

use super::rng::Rng;
use crate::floor::Floor;

/// A plan of an arbitrary kind.
pub fn plan(rng: &mut Rng, floor: Floor, goal: usize) -> Vec<u8> {
    match rng.below(12) {
        0 => vec![0; floor.cells()],
        1..=4 => scattered(rng, floor),
        5 | 6 => maze(rng, floor),
        7 => rooms(rng, floor),
        8 | 9 => racks(rng, floor),
        _ => walled_off(rng, floor, goal),
    }
}

/// 5 to 45 percent of the cells blocked.
fn scattered(rng: &mut Rng, floor: Floor) -> Vec<u8> {
    let percent = rng.between(5, 45);
    (0..floor.cells()).map(|_| u8::from(rng.chance(percent))).collect()
}

/// A maze dug depth first: halls at even rows and columns, and the walls between them.
fn maze(rng: &mut Rng, floor: Floor) -> Vec<u8> {
    let mut plan = vec![1; floor.cells()];
    let mut way = vec![0];
    plan[0] = 0;
    while let Some(&hall) = way.last() {
        let next: Vec<(usize, usize)> = halls_around(floor, hall).into_iter().filter(|&(_, hall)| plan[hall] == 1).collect();
        if next.is_empty() {
            way.pop();
            continue;
        }
        let (wall, hall) = rng.pick(&next);
        plan[wall] = 0;
        plan[hall] = 0;
        way.push(hall);
    }
    plan
}

/// The walls around a hall, each with the hall behind it.
fn halls_around(floor: Floor, hall: usize) -> Vec<(usize, usize)> {
    let mut found = Vec::new();
    for wall in floor.neighbours(hall) {
        for behind in floor.neighbours(wall) {
            // Straight on through the wall.
            if behind + hall == 2 * wall && behind != hall {
                found.push((wall, behind));
            }
        }
    }
    found
}

/// Rooms in rows, with doors here and there in the walls between them.
fn rooms(rng: &mut Rng, floor: Floor) -> Vec<u8> {
    let mut plan = vec![0; floor.cells()];
    let (across, down) = (rng.between(3, 9), rng.between(3, 9));
    for (cell, byte) in plan.iter_mut().enumerate() {
        let (row, column) = (cell / floor.width, cell % floor.width);
        let wall = column % across == across - 1 || row % down == down - 1;
        *byte = u8::from(wall && !rng.chance(20));
    }
    plan
}

/// Racks in every other column, each open at one end or at both, some aisles closed: dead ends.
fn racks(rng: &mut Rng, floor: Floor) -> Vec<u8> {
    let mut plan = vec![0; floor.cells()];
    let gap = rng.between(2, 3);
    for column in (1..floor.width).step_by(gap) {
        let open_end = rng.below(3);
        for row in 0..floor.height {
            let open = (row == 0 && open_end != 1) || (row + 1 == floor.height && open_end != 0);
            plan[row * floor.width + column] = u8::from(!open && !rng.chance(3));
        }
    }
    for byte in &mut plan {
        if rng.chance(4) {
            *byte = 1;
        }
    }
    plan
}

/// A floor, open or scattered, whose goal has a ring of blocked cells around it, or a whole row or column before it.
fn walled_off(rng: &mut Rng, floor: Floor, goal: usize) -> Vec<u8> {
    let mut plan = if rng.chance(50) { vec![0; floor.cells()] } else { scattered(rng, floor) };
    let reach = rng.between(1, 3);
    let whole_row = rng.chance(30);
    for (cell, byte) in plan.iter_mut().enumerate() {
        let rows = (cell / floor.width).abs_diff(goal / floor.width);
        let columns = (cell % floor.width).abs_diff(goal % floor.width);
        let wall = if whole_row { rows == reach } else { rows.max(columns) == reach };
        if wall {
            *byte = 1;
        }
    }
    plan
}
