//! Scenes: a floor with a cart and a goal, and what the cart has learned of it so far. All of them are lawful, but for floors on
//! which no cell is left for the cart.

use super::plans;
use super::rng::Rng;
use super::setting;
use crate::floor::{Floor, Maps};
use crate::leg::{Ending, Task};
use crate::wrong::Planner;

pub struct Scene {
    pub maps: Maps,
    pub cart: usize,
    pub goal: usize,
}

/// Lawful sizes: mostly small, so that ties and bounds are met often; long thin ones, and the largest.
pub fn sizes(rng: &mut Rng) -> Floor {
    let (width, height) = match rng.below(100) {
        0..=34 => (rng.between(1, 5), rng.between(1, 5)),
        35..=69 => (rng.between(1, 9), rng.between(1, 9)),
        70..=84 => (rng.between(2, 16), rng.between(2, 16)),
        85..=88 => (rng.pick(&[1, 2]), rng.pick(&[63, 64])),
        89..=92 => (rng.pick(&[63, 64]), rng.pick(&[1, 2])),
        93..=96 => (rng.between(17, 40), rng.between(17, 40)),
        97 => (rng.pick(&[63, 64]), rng.pick(&[63, 64])),
        _ => (64, 64),
    };
    Floor { width, height }
}

/// A scene of an arbitrary kind.
pub fn scene(rng: &mut Rng) -> Scene {
    let floor = sizes(rng);
    let mut scene = fresh(rng, floor);
    match rng.below(20) {
        0..=7 => {}
        8..=14 => learn(rng, &mut scene),
        _ => invent(rng, &mut scene),
    }
    scene
}

/// A scene of which the cart has learned nothing yet.
pub fn fresh(rng: &mut Rng, floor: Floor) -> Scene {
    let goal = rng.below(floor.cells());
    let mut plan = plans::plan(rng, floor, goal);
    match rng.below(10) {
        0 => plan[goal] = 1,
        1 => {}
        _ => plan[goal] = 0,
    }
    let est = (0..floor.cells()).map(|cell| floor.manhattan(cell, goal) as u16).collect();
    let known = vec![0; floor.cells()];
    let mut scene = Scene { maps: Maps { floor, plan, known, est }, cart: goal, goal };
    if !rng.chance(4) {
        scene.cart = open_cell(rng, &scene.maps.plan);
    }
    scene
}

/// A cell that the plan has open, or any cell if it has none.
fn open_cell(rng: &mut Rng, plan: &[u8]) -> usize {
    let open = cells_with(plan, 0);
    if open.is_empty() {
        return rng.below(plan.len());
    }
    rng.pick(&open)
}

/// The cells that hold this byte in a map.
pub fn cells_with(map: &[u8], byte: u8) -> Vec<usize> {
    (0..map.len()).filter(|&cell| map[cell] == byte).collect()
}

/// Some legs with settings of their own leave what they learned, from one start or from several.
fn learn(rng: &mut Rng, scene: &mut Scene) {
    let n = scene.maps.floor.cells();
    let legs = if n > 400 { rng.between(1, 12) } else { rng.between(1, 80) };
    let mut trail = vec![0; 4096];
    for _ in 0..legs {
        let task = Task { cart: scene.cart, goal: scene.goal, lookahead: setting(rng, n), limit: setting(rng, n) };
        match Planner::right().leg(&mut scene.maps, task, &mut trail) {
            Ok(leg) if leg.ending == Ending::Arrived => scene.cart = open_cell(rng, &scene.maps.plan),
            Ok(leg) => scene.cart = leg.cell,
            Err(_) => return,
        }
        if rng.chance(2) {
            scene.cart = open_cell(rng, &scene.maps.plan);
        }
    }
}

/// A known map and sound estimates that no cart need have learned.
fn invent(rng: &mut Rng, scene: &mut Scene) {
    let share = rng.pick(&[0, 30, 70, 100]);
    for cell in 0..scene.maps.plan.len() {
        scene.maps.known[cell] = u8::from(scene.maps.plan[cell] == 1 && rng.chance(share));
    }
    let n = scene.maps.plan.len();
    let distances = distances_over(&scene.maps.floor, &scene.maps.known, &[(scene.goal, 0)]);
    let mut hills = vec![(scene.goal, 0)];
    for _ in 0..rng.between(1, 4) {
        hills.push((rng.below(n), rng.below(n)));
    }
    let ragged = distances_over(&scene.maps.floor, &scene.maps.known, &hills);
    let chosen = match rng.below(3) {
        0 => vec![0; n],
        1 => distances,
        _ => ragged,
    };
    for (entry, value) in scene.maps.est.iter_mut().zip(chosen) {
        *entry = value as u16;
    }
    loosen_blocked(rng, scene);
}

/// Known blocked cells are in no pair: some get any estimate up to N-1.
fn loosen_blocked(rng: &mut Rng, scene: &mut Scene) {
    let n = scene.maps.plan.len();
    for cell in 0..n {
        if scene.maps.known[cell] == 1 && cell != scene.goal && rng.chance(30) {
            scene.maps.est[cell] = if rng.chance(30) { n - 1 } else { rng.below(n) } as u16;
        }
    }
}

/// How many cells a search from the cart can open at most.
pub fn cells_in_reach(scene: &Scene) -> usize {
    let mut maps = scene.maps.clone();
    Planner::right().sense(&mut maps, scene.cart);
    let distances = distances_over(&maps.floor, &maps.known, &[(scene.cart, 0)]);
    distances.iter().filter(|&&distance| distance + 1 < maps.known.len()).count().max(1)
}

/// For each cell the least, over these cells with their heights, of a height plus the moves from there over the map's open
/// cells; N-1 where it would be more or there is no way.
pub fn distances_over(floor: &Floor, map: &[u8], starts: &[(usize, usize)]) -> Vec<usize> {
    let far = map.len() - 1;
    let mut distances = vec![far; map.len()];
    for &(cell, height) in starts {
        distances[cell] = distances[cell].min(height);
    }
    let mut waiting: Vec<usize> = (0..map.len()).filter(|&cell| distances[cell] < far).collect();
    while !waiting.is_empty() {
        let mut fallen = Vec::new();
        for cell in waiting {
            for next in floor.neighbours(cell) {
                if map[cell] == 0 && map[next] == 0 && distances[cell] + 1 < distances[next] {
                    distances[next] = distances[cell] + 1;
                    fallen.push(next);
                }
            }
        }
        waiting = fallen;
    }
    distances
}
