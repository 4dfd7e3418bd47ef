//! Refusals 1 to 9: when each is given, and in which order they are tested.

use crate::floor::{Floor, Maps};
use crate::leg::Task;
use crate::wrong::{Planner, Wrong};

/// What a leg or a walk was asked to do.
struct Asked<'a> {
    maps: &'a Maps,
    task: &'a Task,
    trail: usize,
    /// The trail has to hold as many moves: the move limit of a leg, the allowance of a walk.
    moves: usize,
}

impl Planner {
    pub(crate) fn check_leg(&self, maps: &Maps, task: &Task, trail: usize) -> Result<(), u8> {
        let asked = Asked { maps, task, trail, moves: task.limit };
        self.first(&[1, 2, 3, 4, 5, 6, 7, 8, 9], |number| self.broken(number, &asked))
    }

    pub(crate) fn check_walk(&self, maps: &Maps, task: &Task, allowance: usize, trail: usize) -> Result<(), u8> {
        let mut tested = *task;
        if self.is(Wrong::LimitCutFirst) {
            tested.limit = task.limit.min(allowance);
        }
        let moves = if self.is(Wrong::WalkTrailLimit) { task.limit } else { allowance };
        let asked = Asked { maps, task: &tested, trail, moves };
        self.first(&[1, 2, 3, 4, 5, 6, 7, 8, 9], |number| self.broken(number, &asked))
    }

    pub(crate) fn check_prepare(&self, floor: Floor, goal: usize, est: usize) -> Result<(), u8> {
        self.first(&[1, 2, 3], |number| match number {
            1 => !self.sizes_lawful(floor),
            2 => est != floor.cells(),
            _ => goal >= floor.cells(),
        })
    }

    pub(crate) fn check_required(&self, floor: Floor, start: usize, goal: usize) -> Result<(), u8> {
        self.first(&[1, 3], |number| match number {
            1 => !self.sizes_lawful(floor),
            _ => start >= floor.cells() || goal >= floor.cells(),
        })
    }

    /// The first refusal in this order whose ground is there.
    fn first(&self, order: &[u8], broken: impl Fn(u8) -> bool) -> Result<(), u8> {
        if self.is(Wrong::RefusesAlways) {
            return Err(order[0]);
        }
        let mut order = order.to_vec();
        self.misplace(&mut order);
        match order.iter().find(|&&number| broken(number)) {
            Some(&number) => Err(number),
            None => Ok(()),
        }
    }

    /// In the wrong planners that test in another order: swaps two refusals.
    fn misplace(&self, order: &mut [u8]) {
        let swapped = [
            (Wrong::TwoBeforeOne, 2, 1),
            (Wrong::ThreeBeforeOne, 3, 1),
            (Wrong::ThreeBeforeTwo, 3, 2),
            (Wrong::FourBeforeThree, 4, 3),
            (Wrong::FiveBeforeFour, 5, 4),
            (Wrong::SixBeforeFive, 6, 5),
            (Wrong::SevenBeforeSix, 7, 6),
            (Wrong::EightBeforeSeven, 8, 7),
            (Wrong::NineBeforeEight, 9, 8),
        ];
        for (wrong, first, second) in swapped {
            let place = |number: u8| order.iter().position(|&other| other == number);
            if let (true, Some(one), Some(other)) = (self.is(wrong), place(first), place(second)) {
                order.swap(one, other);
            }
        }
    }

    /// Whether this refusal's ground is there. One that needs lawful sizes, lengths or cells is tested after them.
    fn broken(&self, number: u8, asked: &Asked) -> bool {
        let (maps, task) = (asked.maps, asked.task);
        let n = maps.floor.cells();
        let on_goal = self.is(Wrong::GoalFirst) && task.cart == task.goal;
        match number {
            1 => !self.sizes_lawful(maps.floor),
            2 => maps.plan.len() != n || maps.known.len() != n || self.length_wrong(maps.est.len(), n),
            3 => task.cart >= n || task.goal >= n,
            _ if on_goal => false,
            4 => !self.lookahead_lawful(task.lookahead) || !setting_lawful(task.limit),
            5 => asked.trail < asked.moves,
            6 => self.plan_byte_wrong(&maps.plan) || maps.known.iter().any(|&byte| byte > 1),
            7 => maps.plan.iter().zip(&maps.known).any(|(&plan, &known)| known == 1 && plan == 0),
            8 => maps.plan.get(task.cart) == Some(&1) || self.goal_refused(maps, task.goal),
            _ => !self.sound(maps, task),
        }
    }

    fn sizes_lawful(&self, floor: Floor) -> bool {
        if self.is(Wrong::SideOf65) {
            return (1..=65).contains(&floor.width) && (1..=65).contains(&floor.height);
        }
        floor.lawful()
    }

    fn length_wrong(&self, length: usize, n: usize) -> bool {
        length < n || (length > n && !self.is(Wrong::LongMaps))
    }

    fn lookahead_lawful(&self, lookahead: usize) -> bool {
        setting_lawful(lookahead) || (self.is(Wrong::Lookahead4097) && lookahead == 4097)
    }

    fn plan_byte_wrong(&self, plan: &[u8]) -> bool {
        plan.iter().any(|&byte| byte > 1) && !self.is(Wrong::NotPlanBytes)
    }

    fn goal_refused(&self, maps: &Maps, goal: usize) -> bool {
        self.is(Wrong::BlockedGoalRefused) && maps.plan.get(goal) == Some(&1)
    }

    /// Whether the estimates are sound by the known map as it was given.
    fn sound(&self, maps: &Maps, task: &Task) -> bool {
        let n = maps.floor.cells();
        if self.is(Wrong::NotSound) {
            return true;
        }
        if self.is(Wrong::SoundAfterSensing) && task.cart != task.goal {
            let mut sensed = maps.clone();
            self.sense(&mut sensed, task.cart);
            return Planner::right().sound(&sensed, task);
        }
        let goal_is_0 = maps.est[task.goal] == 0 || self.is(Wrong::GoalNotZero);
        let bounded = (0..n).all(|cell| {
            let est = usize::from(maps.est[cell]);
            let excused = (self.is(Wrong::BlockedUnbounded) && !maps.known_open(cell)) || (self.is(Wrong::EstimateN) && est == n);
            est < n || excused
        });
        goal_is_0 && bounded && (0..n).all(|cell| self.agrees_with_neighbours(maps, cell))
    }

    /// Whether this cell and each adjoining one, both not blocked in the known map, differ by at most 1.
    fn agrees_with_neighbours(&self, maps: &Maps, cell: usize) -> bool {
        let counts = |cell: usize| {
            let blocked = if self.is(Wrong::SoundByPlan) { maps.plan[cell] == 1 } else { !maps.known_open(cell) };
            !blocked || self.is(Wrong::SoundWithBlocked)
        };
        maps.floor.neighbours(cell).iter().all(|&next| {
            let excused = (self.is(Wrong::SoundOneWay) && (maps.est[next] > maps.est[cell]) == (next > cell))
                || (self.is(Wrong::SoundRowsOnly) && next.abs_diff(cell) == maps.floor.width && maps.floor.width > 1);
            excused || !counts(cell) || !counts(next) || maps.est[cell].abs_diff(maps.est[next]) <= 1
        })
    }
}

/// Lookahead and move limit are 1 to 4,096 each.
pub(crate) fn setting_lawful(setting: usize) -> bool {
    (1..=4096).contains(&setting)
}
