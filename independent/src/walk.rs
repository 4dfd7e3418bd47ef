//! One walk: legs until the cart arrives, is cut off, or has spent its allowance of moves.

use crate::floor::Maps;
use crate::leg::{Ending, Leg, Task};
use crate::wrong::{Planner, Wrong};

/// How a walk ended, with the legs that searched, a cut-off leg included.
#[derive(Clone, PartialEq, Eq, Debug)]
pub struct Walk {
    pub ending: Ending,
    pub cell: usize,
    pub moves: usize,
    pub legs: Vec<Leg>,
    pub opened: u64,
}

impl Planner {
    /// One walk, or its refusal.
    pub fn walk(&self, maps: &mut Maps, task: Task, allowance: usize, trail: &mut [u16]) -> Result<Walk, u8> {
        self.check_walk(maps, &task, allowance, trail.len())?;
        if self.is(Wrong::PreparesAgain) {
            self.prepare(maps.floor, task.goal, &mut maps.est)?;
        }
        let mut walk = Walk { ending: Ending::Arrived, cell: task.cart, moves: 0, legs: Vec::new(), opened: 0 };
        loop {
            if let Some(ending) = self.ended(&walk, &task, allowance) {
                walk.ending = ending;
                return Ok(walk);
            }
            let left = allowance.saturating_sub(walk.moves);
            let limit = if self.is(Wrong::LimitUncut) { task.limit } else { task.limit.min(left) };
            let leg_task = Task { cart: walk.cell, limit, ..task };
            let written = if self.is(Wrong::TrailRestarts) { 0 } else { walk.moves };
            let unwritten = trail.get_mut(written..).unwrap_or_default();
            let leg = if self.is(Wrong::Coasts) && !walk.legs.is_empty() {
                self.coast(maps, &leg_task, unwritten)
            } else {
                self.run_leg(maps, leg_task, unwritten)
            };
            self.take(&mut walk, leg);
            if leg.ending != Ending::UnderWay {
                walk.ending = leg.ending;
                return Ok(walk);
            }
        }
    }

    /// How the walk ends before its next leg, if it does: the goal comes before the allowance.
    fn ended(&self, walk: &Walk, task: &Task, allowance: usize) -> Option<Ending> {
        let spent = walk.moves >= allowance;
        if spent && self.is(Wrong::SpentFirst) {
            return Some(Ending::Spent);
        }
        match (walk.cell == task.goal, spent) {
            (true, _) => Some(Ending::Arrived),
            (false, true) => Some(Ending::Spent),
            (false, false) => None,
        }
    }

    /// Adds a leg that searched.
    fn take(&self, walk: &mut Walk, leg: Leg) {
        walk.cell = leg.cell;
        walk.moves += leg.moves;
        let cut_off = leg.ending == Ending::CutOff;
        if !(cut_off && self.is(Wrong::CutOffNotOpened)) {
            walk.opened += leg.opened as u64;
        }
        if !(cut_off && self.is(Wrong::CutOffNoLeg)) {
            walk.legs.push(leg);
        }
    }

    /// In the planner that coasts: one move to the neighbour with the least estimate, and no search.
    fn coast(&self, maps: &mut Maps, task: &Task, trail: &mut [u16]) -> Leg {
        self.sense(maps, task.cart);
        let open = maps.floor.neighbours(task.cart).into_iter().filter(|&cell| maps.known_open(cell));
        match open.min_by_key(|&cell| maps.est[cell]) {
            None => Leg { ending: Ending::CutOff, cell: task.cart, moves: 0, opened: 1 },
            Some(cell) => {
                if let Some(entry) = trail.first_mut() {
                    *entry = cell as u16;
                }
                let ending = if cell == task.goal { Ending::Arrived } else { Ending::UnderWay };
                Leg { ending, cell, moves: 1, opened: 1 }
            }
        }
    }
}
