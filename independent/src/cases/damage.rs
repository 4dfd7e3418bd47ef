//! Damage to lawful calls: each ground for a refusal, alone and with others, at the bounds and far past them.

use super::rng::Rng;
use super::scenes::cells_with;
use crate::floor::{Floor, Maps};
use crate::leg::Task;

/// What a leg or walk is given; `moves` is the move limit or the allowance, which the trail has to hold.
pub struct Outing {
    pub maps: Maps,
    pub task: Task,
    pub moves: usize,
    pub trail: Vec<u16>,
}

/// Which of these refusals a call is to be damaged for: mostly none or one, else several, in the order given.
pub fn some(rng: &mut Rng, refusals: &[u8]) -> Vec<u8> {
    match rng.below(10) {
        0..=5 => vec![],
        6 | 7 => vec![rng.pick(refusals)],
        // Two that are tested one after the other.
        8 => {
            let first = rng.below(refusals.len() - 1);
            refusals[first..=first + 1].to_vec()
        }
        _ => refusals.iter().copied().filter(|_| rng.chance(40)).collect(),
    }
}

/// Gives an outing the ground for one refusal.
pub fn spoil(rng: &mut Rng, outing: &mut Outing, refusal: u8, walk: bool) {
    let n = outing.maps.plan.len();
    match refusal {
        1 => spoil_sizes(rng, outing),
        2 => match rng.below(3) {
            0 => length(rng, &mut outing.maps.plan),
            1 => length(rng, &mut outing.maps.known),
            _ => length(rng, &mut outing.maps.est),
        },
        3 if rng.chance(50) => outing.task.cart = cell(rng, outing.task.cart, n),
        3 => outing.task.goal = cell(rng, outing.task.goal, n),
        4 if rng.chance(50) => outing.task.lookahead = unlawful_setting(rng, outing.task.lookahead),
        4 => {
            outing.task.limit = unlawful_setting(rng, outing.task.limit);
            // A trail that would be long enough for this limit, where there can be one.
            if !walk && outing.task.limit == 4097 {
                outing.trail.resize(4097, 0);
            }
        }
        5 => shorten(rng, outing, walk),
        6 => {
            let map = if rng.chance(50) { &mut outing.maps.plan } else { &mut outing.maps.known };
            map[rng.below(n)] = rng.pick(&[2, 3, 128, 254, 255]);
        }
        7 => block_an_open_cell(rng, outing),
        8 => {
            outing.maps.plan[outing.task.cart] = 1;
            outing.maps.known[outing.task.cart] = rng.below(2) as u8;
        }
        _ => spoil_estimates(rng, outing),
    }
}

/// A number that isn't lawful, though what is left of it in 16 or 32 bits may be.
fn huge(rng: &mut Rng, lawful: usize) -> usize {
    match rng.below(6) {
        0 => (1 << 16) + lawful,
        1 => (1 << 32) + lawful,
        2 => (1 << 63) + lawful,
        3 => usize::MAX,
        4 => usize::MAX - lawful,
        _ => rng.any() as usize | 1 << 40,
    }
}

/// One side 0, 65 or larger.
pub fn side(rng: &mut Rng, floor: &mut Floor) {
    let side = if rng.chance(50) { &mut floor.width } else { &mut floor.height };
    *side = match rng.below(5) {
        0 => 0,
        1 => 65,
        2 => rng.between(66, 300),
        _ => huge(rng, *side),
    };
}

/// Sizes that are not lawful, in some calls with maps of just that length.
fn spoil_sizes(rng: &mut Rng, outing: &mut Outing) {
    side(rng, &mut outing.maps.floor);
    let n = outing.maps.floor.cells();
    if n <= 65 * 64 && rng.chance(60) {
        outing.maps.plan.resize(n, 0);
        outing.maps.known.resize(n, 0);
        outing.maps.est = (0..n).map(|cell| outing.maps.floor.manhattan(cell, outing.task.goal) as u16).collect();
    }
}

/// A length that isn't N: one less, one more, none, twice, or N and 65,536 more.
pub fn length<T: Copy + Default>(rng: &mut Rng, slice: &mut Vec<T>) {
    let n = slice.len();
    let wrong = match rng.below(20) {
        0..=6 => n.saturating_sub(1),
        7..=13 => n + 1,
        14 | 15 => 0,
        16 | 17 => 2 * n,
        18 => n + rng.between(1, 300),
        _ => n + 65_536,
    };
    slice.resize(wrong, T::default());
}

/// A cell number that isn't below N.
pub fn cell(rng: &mut Rng, cell: usize, n: usize) -> usize {
    match rng.below(4) {
        0 => n,
        1 => n + rng.between(1, 5000),
        2 => (1 << 16) + cell,
        _ => huge(rng, cell),
    }
}

fn unlawful_setting(rng: &mut Rng, setting: usize) -> usize {
    match rng.below(4) {
        0 => 0,
        1 => 4097,
        2 => rng.between(4098, 70_000),
        _ => huge(rng, setting),
    }
}

/// A trail shorter than the move limit or the allowance.
fn shorten(rng: &mut Rng, outing: &mut Outing, walk: bool) {
    if walk && rng.chance(50) {
        outing.moves = match rng.below(3) {
            0 => outing.trail.len() + 1,
            _ => huge(rng, outing.trail.len()),
        };
        return;
    }
    let short = match rng.below(3) {
        0 => 0,
        1 => rng.below(outing.moves + 1),
        _ => outing.moves.saturating_sub(1),
    };
    outing.trail.truncate(short);
}

/// A cell known to be blocked that the plan has open.
fn block_an_open_cell(rng: &mut Rng, outing: &mut Outing) {
    let open = cells_with(&outing.maps.plan, 0);
    if open.is_empty() {
        return;
    }
    let cell = if rng.chance(15) { outing.task.cart } else { rng.pick(&open) };
    outing.maps.known[cell] = 1;
}

/// Estimates that are not sound: by the goal's, by a large one, or by a pair; also where they stay sound since the pair has a
/// known blocked cell.
fn spoil_estimates(rng: &mut Rng, outing: &mut Outing) {
    let maps = &mut outing.maps;
    let n = maps.plan.len();
    match rng.below(9) {
        // Every estimate 1 higher, so that no pair breaks.
        0 => maps.est.iter_mut().for_each(|est| *est = est.saturating_add(1).min(n as u16 - 1)),
        1 => maps.est[outing.task.goal] = 1,
        2 | 3 => {
            let blocked = cells_with(&maps.known, 1);
            let cell = if blocked.is_empty() { rng.below(n) } else { rng.pick(&blocked) };
            maps.est[cell] = rng.pick(&[n as u16, n as u16, n as u16 + 1, 32_768, 65_535]);
        }
        4 => rack_beside_cart(rng, maps, &outing.task),
        5 => {
            let blocked = cells_with(&maps.plan, 1);
            if !blocked.is_empty() {
                shift(rng, maps, &blocked);
            }
        }
        _ => break_one_pair(rng, maps),
    }
}

/// A rack that the cart hasn't sensed yet, though it is about to: its cell is still in its pairs.
fn rack_beside_cart(rng: &mut Rng, maps: &mut Maps, task: &Task) {
    let around = maps.floor.neighbours(task.cart);
    let beside: Vec<usize> = around.into_iter().filter(|&cell| cell != task.goal).collect();
    if !beside.is_empty() {
        let cell = rng.pick(&beside);
        maps.plan[cell] = 1;
        maps.known[cell] = 0;
        move_estimate(rng, maps, cell, 3);
    }
}

/// One of these cells' estimates goes up or down by 1 to 3.
fn shift(rng: &mut Rng, maps: &mut Maps, cells: &[usize]) {
    let (cell, by) = (rng.pick(cells), rng.between(1, 3));
    move_estimate(rng, maps, cell, by as u16);
}

/// A cell's estimate goes up or down, and stays at most N-1.
fn move_estimate(rng: &mut Rng, maps: &mut Maps, cell: usize, by: u16) {
    let most = maps.plan.len() as u16 - 1;
    let est = maps.est[cell];
    maps.est[cell] = if rng.chance(50) { est.saturating_add(by).min(most) } else { est.saturating_sub(by) };
}

/// A shift that breaks a single pair, if one is found.
fn break_one_pair(rng: &mut Rng, maps: &mut Maps) {
    let cells: Vec<usize> = (0..maps.plan.len()).collect();
    let before = maps.est.clone();
    for _ in 0..30 {
        maps.est.clone_from(&before);
        shift(rng, maps, &cells);
        if broken_pairs(maps) == 1 {
            return;
        }
    }
}

/// How many adjoining cells, both not blocked in the known map, differ by more than 1.
fn broken_pairs(maps: &Maps) -> usize {
    let breaks = |cell: usize, next: usize| {
        next > cell && maps.known_open(cell) && maps.known_open(next) && maps.est[cell].abs_diff(maps.est[next]) > 1
    };
    let broken_at = |cell: usize| maps.floor.neighbours(cell).iter().filter(|&&next| breaks(cell, next)).count();
    (0..maps.plan.len()).map(broken_at).sum()
}
