//! The floor: sizes, cells, maps and estimates, and the two entries that need nothing else, preparing and the required figure.

use crate::wrong::{Planner, Wrong};

/// The sizes of a floor, as they were given: `lawful` says whether they are sizes at all.
#[derive(Clone, Copy, PartialEq, Eq, Debug)]
pub struct Floor {
    pub width: usize,
    pub height: usize,
}

impl Floor {
    pub const MAX_SIDE: usize = 64;
    pub const MAX_CELLS: usize = Floor::MAX_SIDE * Floor::MAX_SIDE;

    pub fn lawful(self) -> bool {
        (1..=Floor::MAX_SIDE).contains(&self.width) && (1..=Floor::MAX_SIDE).contains(&self.height)
    }

    /// N. Sizes that are not lawful may have more cells than can be counted.
    pub fn cells(self) -> usize {
        self.width.saturating_mul(self.height)
    }

    /// The cells that share a side with this one.
    pub fn neighbours(self, cell: usize) -> Vec<usize> {
        let (row, column) = (cell / self.width, cell % self.width);
        let mut cells = Vec::new();
        if row > 0 {
            cells.push(cell - self.width);
        }
        if column > 0 {
            cells.push(cell - 1);
        }
        if column + 1 < self.width {
            cells.push(cell + 1);
        }
        if row + 1 < self.height {
            cells.push(cell + self.width);
        }
        cells
    }

    /// The Manhattan distance between two cells.
    pub fn manhattan(self, one: usize, other: usize) -> usize {
        let rows = (one / self.width).abs_diff(other / self.width);
        let columns = (one % self.width).abs_diff(other % self.width);
        rows + columns
    }
}

/// A floor with its plan (the truth), a cart's known map and its estimates. The three are as long as the caller made them.
#[derive(Clone, PartialEq, Eq, Debug)]
pub struct Maps {
    pub floor: Floor,
    pub plan: Vec<u8>,
    pub known: Vec<u8>,
    pub est: Vec<u16>,
}

impl Maps {
    /// A fresh cart's maps: nothing known to be blocked, estimates prepared.
    pub fn fresh(floor: Floor, plan: Vec<u8>, goal: usize) -> Result<Maps, u8> {
        let known = vec![0; plan.len()];
        let mut est = vec![0; plan.len()];
        Planner::right().prepare(floor, goal, &mut est)?;
        Ok(Maps { floor, plan, known, est })
    }

    pub fn known_open(&self, cell: usize) -> bool {
        self.known[cell] == 0
    }
}

impl Planner {
    /// Writes into each cell its Manhattan distance to the goal.
    pub fn prepare(&self, floor: Floor, goal: usize, est: &mut [u16]) -> Result<(), u8> {
        self.check_prepare(floor, goal, est.len())?;
        for (cell, entry) in est.iter_mut().enumerate() {
            *entry = floor.manhattan(cell, goal) as u16;
        }
        Ok(())
    }

    /// The moves that a trip from start to goal calls for: their Manhattan distance.
    pub fn required(&self, floor: Floor, start: usize, goal: usize) -> Result<usize, u8> {
        self.check_required(floor, start, goal)?;
        Ok(floor.manhattan(start, goal))
    }

    pub(crate) fn neighbours(&self, floor: Floor, cell: usize) -> Vec<usize> {
        if self.is(Wrong::RowsWrap) {
            let around = [cell.wrapping_sub(floor.width), cell.wrapping_sub(1), cell + 1, cell + floor.width];
            return around.iter().copied().filter(|&next| next < floor.cells()).collect();
        }
        floor.neighbours(cell)
    }
}
