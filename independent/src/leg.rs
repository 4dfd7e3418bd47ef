//! One leg: steps a to g of document 01.

use crate::floor::Maps;
use crate::wrong::{Planner, Wrong};

/// The cells and settings that a leg or a walk is given.
#[derive(Clone, Copy, PartialEq, Eq, Debug)]
pub struct Task {
    pub cart: usize,
    pub goal: usize,
    pub lookahead: usize,
    pub limit: usize,
}

/// Endings with the paper's numbers.
#[derive(Clone, Copy, PartialEq, Eq, Debug)]
pub enum Ending {
    Arrived = 1,
    CutOff = 2,
    Spent = 3,
    UnderWay = 4,
}

/// How a leg ended.
#[derive(Clone, Copy, PartialEq, Eq, Debug)]
pub struct Leg {
    pub ending: Ending,
    pub cell: usize,
    pub moves: usize,
    pub opened: usize,
}

/// What the search of one leg found out. A cell with no way to it yet has no g.
struct Search {
    g: Vec<Option<usize>>,
    parent: Vec<Option<usize>>,
    frontier: Vec<usize>,
    opened: Vec<usize>,
    target: Option<usize>,
}

impl Search {
    fn starting_at(cart: usize, cells: usize) -> Search {
        let mut g = vec![None; cells];
        g[cart] = Some(0);
        Search { g, parent: vec![None; cells], frontier: vec![cart], opened: Vec::new(), target: None }
    }

    /// g + estimate of a cell that has a g.
    fn sum(&self, maps: &Maps, cell: usize) -> Option<usize> {
        Some(self.g[cell]? + usize::from(maps.est[cell]))
    }

    /// The parents' route to the target, without the cart's own cell.
    fn route(&self, target: usize) -> Vec<usize> {
        let mut route = Vec::new();
        let mut cell = target;
        while let Some(parent) = self.parent[cell] {
            route.push(cell);
            cell = parent;
        }
        route.reverse();
        route
    }
}

impl Planner {
    /// One leg, or its refusal.
    pub fn leg(&self, maps: &mut Maps, task: Task, trail: &mut [u16]) -> Result<Leg, u8> {
        self.check_leg(maps, &task, trail.len())?;
        Ok(self.run_leg(maps, task, trail))
    }

    /// Steps a to g of a leg that isn't refused.
    pub(crate) fn run_leg(&self, maps: &mut Maps, task: Task, trail: &mut [u16]) -> Leg {
        // a. On the goal: arrived, nothing written.
        if task.cart == task.goal {
            if self.is(Wrong::SensesOnGoal) {
                self.sense(maps, task.cart);
            }
            return Leg { ending: Ending::Arrived, cell: task.cart, moves: 0, opened: 0 };
        }
        // b. Sense.
        let known_before = maps.known.clone();
        if !self.is(Wrong::NoSensingFirst) {
            self.sense(maps, task.cart);
        }
        // c. Search from the cart.
        let search = self.search(maps, &task);
        let target_opened = self.is(Wrong::TargetOpened) && search.target.is_some();
        let opened = search.opened.len() + usize::from(target_opened);
        // d. No target, or its F above N-1: cut off. What was sensed stays.
        let (target, f) = match self.target_within_bound(maps, &task, &search) {
            Some(found) => found,
            None => {
                if self.is(Wrong::CutOffForgets) {
                    maps.known = known_before;
                }
                return Leg { ending: self.ending(Ending::CutOff), cell: task.cart, moves: 0, opened };
            }
        };
        // e. Update the opened cells.
        self.update(maps, &search, target, f);
        // f. Move towards the target.
        let (cell, moves) = self.follow(maps, &search.route(target), &task, trail);
        // g. The ending.
        let ending = if cell == task.goal { Ending::Arrived } else { Ending::UnderWay };
        self.counted(Leg { ending: self.ending(ending), cell, moves, opened })
    }

    /// Each adjoining cell blocked in the plan becomes blocked in the known map.
    pub(crate) fn sense(&self, maps: &mut Maps, cart: usize) {
        for cell in self.neighbours(maps.floor, cart) {
            if maps.plan[cell] == 1 {
                maps.known[cell] = 1;
            }
        }
    }

    /// Step c: opens cells until the target is taken, or none is left.
    fn search(&self, maps: &Maps, task: &Task) -> Search {
        let mut search = Search::starting_at(task.cart, maps.known.len());
        let lookahead = task.lookahead + usize::from(self.is(Wrong::OpensOneMore));
        while let Some(taken) = self.best(maps, &search) {
            if taken == task.goal || search.opened.len() >= lookahead {
                search.target = Some(taken);
                return search;
            }
            self.open(maps, &mut search, taken);
            if self.is(Wrong::StopsAtJoin) && search.frontier.contains(&task.goal) {
                search.target = Some(task.goal);
                return search;
            }
        }
        if self.is(Wrong::UsedUpBeforeEmpty) && search.opened.len() >= task.lookahead {
            search.target = search.opened.last().copied().filter(|&cell| cell != task.cart);
        }
        search
    }

    /// The frontier cell with the least g + estimate; among equals the larger g; among those the lower cell number.
    fn best(&self, maps: &Maps, search: &Search) -> Option<usize> {
        let rank = |&cell: &usize| {
            let (sum, g, number) = (search.sum(maps, cell)? as i64, search.g[cell]? as i64, cell as i64);
            let g_rank = if self.is(Wrong::SmallerG) { g } else { -g };
            let number_rank = if self.is(Wrong::HigherCell) { -number } else { number };
            Some((sum, g_rank, number_rank, cell))
        };
        if self.is(Wrong::SumAlone) {
            return search.frontier.iter().copied().min_by_key(|&cell| search.sum(maps, cell));
        }
        search.frontier.iter().filter_map(rank).min().map(|(_, _, _, cell)| cell)
    }

    /// Opens a cell: it leaves the frontier, and each neighbour that it gives a smaller g, or its first, joins.
    fn open(&self, maps: &Maps, search: &mut Search, cell: usize) {
        search.frontier.retain(|&other| other != cell);
        search.opened.push(cell);
        let new_g = search.g[cell].map_or(0, |g| g + 1);
        for next in self.neighbours(maps.floor, cell) {
            let joins = match search.g[next] {
                None => true,
                Some(_) if self.is(Wrong::GNeverFalls) => false,
                Some(g) => new_g < g || (self.is(Wrong::EqualGJoins) && new_g == g),
            };
            if !maps.known_open(next) || !joins {
                continue;
            }
            search.g[next] = Some(new_g);
            search.parent[next] = Some(cell);
            if !search.frontier.contains(&next) {
                search.frontier.push(next);
            }
        }
    }

    /// Step d: the target with its F, unless the leg is cut off.
    fn target_within_bound(&self, maps: &mut Maps, task: &Task, search: &Search) -> Option<(usize, usize)> {
        let target = search.target?;
        let f = search.sum(maps, target)?;
        let bound = maps.known.len() - 1;
        let used_up = search.opened.len() >= task.lookahead && target != task.goal;
        let cut_off = (f > bound && !self.is(Wrong::NoBound))
            || (f == bound && self.is(Wrong::CutOffAtBound))
            || (used_up && self.is(Wrong::UsedUpIsCutOff));
        if cut_off && self.is(Wrong::UpdatesAtCutOff) {
            self.update(maps, search, target, f);
        }
        if cut_off {
            None
        } else {
            Some((target, f))
        }
    }

    /// Step e: each opened cell's estimate becomes F minus its g.
    fn update(&self, maps: &mut Maps, search: &Search, target: usize, f: usize) {
        let mut changed = search.opened.clone();
        let mut f = f;
        if self.is(Wrong::RaisesFrontier) {
            changed.extend(&search.frontier);
        }
        if self.is(Wrong::LastOpenedSum) {
            f = search.opened.last().and_then(|&cell| search.sum(maps, cell)).unwrap_or(f);
        }
        if self.is(Wrong::NeverUpdates) {
            changed.clear();
        }
        for cell in changed {
            if let Some(g) = search.g[cell] {
                maps.est[cell] = f.saturating_sub(g) as u16;
            }
        }
        if self.is(Wrong::RaisesTarget) {
            maps.est[target] = maps.est[target].saturating_add(1);
        }
    }

    /// Step f: moves along the route, and answers the cart's new cell and the moves made.
    fn follow(&self, maps: &mut Maps, route: &[usize], task: &Task, trail: &mut [u16]) -> (usize, usize) {
        let limit = task.limit + usize::from(self.is(Wrong::PastLimit));
        let mut cart = task.cart;
        let mut moves = 0;
        while moves < limit && moves < route.len() {
            let written = if self.is(Wrong::TrailFromCart) { cart } else { route[moves] };
            cart = route[moves];
            // The trail isn't shorter than the move limit: that was refused.
            if let Some(entry) = trail.get_mut(moves) {
                *entry = written as u16;
            }
            moves += 1;
            let last_move = moves == limit || moves == route.len();
            if !(last_move && self.is(Wrong::NotAfterLastMove)) {
                self.sense_on_the_way(maps, cart, route.get(moves));
            }
            if self.blocked_ahead(maps, &route[moves..]) {
                break;
            }
        }
        if self.is(Wrong::TrailPastMoves) {
            for (entry, &cell) in trail.iter_mut().zip(route).skip(moves) {
                *entry = cell as u16;
            }
        }
        (cart, moves)
    }

    fn sense_on_the_way(&self, maps: &mut Maps, cart: usize, next: Option<&usize>) {
        if !self.is(Wrong::SensesAhead) {
            self.sense(maps, cart);
        } else if let Some(&next) = next {
            maps.known[next] |= maps.plan[next];
        }
    }

    /// Whether any cell still ahead on the route, past the move limit too, is now known blocked.
    fn blocked_ahead(&self, maps: &Maps, ahead: &[usize]) -> bool {
        ahead.iter().any(|&cell| !maps.known_open(cell)) && !self.is(Wrong::NoLook)
    }

    fn ending(&self, ending: Ending) -> Ending {
        if self.is(Wrong::ConstantEnding) {
            return Ending::Arrived;
        }
        ending
    }

    /// In the wrong planners that count wrongly: the leg with its false counts.
    fn counted(&self, mut leg: Leg) -> Leg {
        if self.is(Wrong::MoveMore) {
            leg.moves += 1;
        }
        if self.is(Wrong::InventsCounts) {
            std::mem::swap(&mut leg.moves, &mut leg.opened);
        }
        leg
    }
}
