//! The host's leg: the simulator lends its cart record, which holds the new cell and running totals after each leg.

use crate::floor::Maps;
use crate::leg::{Ending, Leg, Task};
use crate::wrong::{Planner, Wrong};

/// The cart record.
#[derive(Clone, Copy, PartialEq, Eq, Debug, Default)]
pub struct Cart {
    pub cell: u32,
    pub moves: u32,
    pub opened: u32,
    pub legs: u32,
}

impl Planner {
    /// One leg of the lent cart, or its refusal. The task's own cart cell is the record's.
    pub fn host_leg(&self, cart: &mut Cart, maps: &mut Maps, task: Task, trail: &mut [u16]) -> Result<Leg, u8> {
        let task = Task { cart: cart.cell as usize, ..task };
        let leg = self.leg(maps, task, trail)?;
        let cut_off = leg.ending == Ending::CutOff;
        let searched = (task.cart != task.goal || self.is(Wrong::LegOnGoal)) && !(cut_off && self.is(Wrong::CutOffNoLeg));
        let opened = if cut_off && self.is(Wrong::CutOffNotOpened) { 0 } else { leg.opened };
        cart.cell = leg.cell as u32;
        cart.moves = self.total(cart.moves, leg.moves);
        cart.opened = self.total(cart.opened, opened);
        cart.legs = self.total(cart.legs, usize::from(searched));
        Ok(leg)
    }

    /// A running total that would pass 4,294,967,295 stays there.
    fn total(&self, before: u32, more: usize) -> u32 {
        if self.is(Wrong::TotalsWrap) {
            return before.wrapping_add(more as u32);
        }
        if self.is(Wrong::TotalsReplaced) {
            return more as u32;
        }
        before.saturating_add(more as u32)
    }
}
