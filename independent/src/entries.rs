//! The eight entries of the C interface: what each is given, what it lends, and what a planner answers.

use crate::floor::{Floor, Maps};
use crate::host::Cart;
use crate::leg::{Leg, Task};
use crate::records::Record;
use crate::wrong::{Planner, Wrong};

/// A call of one entry, with all its numbers and all the memory that it lends.
#[derive(Clone, PartialEq, Eq, Debug)]
pub struct Call {
    pub given: Given,
    /// The result array. Prepare and write have none.
    pub result: Vec<u64>,
}

#[derive(Clone, PartialEq, Eq, Debug)]
pub enum Given {
    Prepare {
        floor: Floor,
        goal: usize,
        est: Vec<u16>,
    },
    Required {
        floor: Floor,
        start: usize,
        goal: usize,
    },
    Leg {
        maps: Maps,
        task: Task,
        trail: Vec<u16>,
    },
    /// The task's own cart cell isn't handed over: the record has it.
    HostLeg {
        cart: Cart,
        maps: Maps,
        task: Task,
        trail: Vec<u16>,
    },
    Walk {
        maps: Maps,
        task: Task,
        allowance: usize,
        trail: Vec<u16>,
    },
    Write {
        record: Record,
        room: Vec<u8>,
    },
    Count {
        bytes: Vec<u8>,
    },
    Read {
        bytes: Vec<u8>,
        number: usize,
    },
}

/// An entry: its number in the driver's protocol is its place in `ENTRIES`.
#[derive(Debug)]
pub struct Entry {
    pub name: &'static str,
    /// How many numbers its result array holds.
    pub results: usize,
    pub endings: &'static [u8],
    pub refusals: &'static [u8],
}

const LEG_REFUSALS: &[u8] = &[1, 2, 3, 4, 5, 6, 7, 8, 9];

pub const ENTRIES: [Entry; 8] = [
    Entry { name: "prepare", results: 0, endings: &[], refusals: &[1, 2, 3] },
    Entry { name: "required", results: 1, endings: &[], refusals: &[1, 3] },
    Entry { name: "leg", results: 4, endings: &[1, 2, 4], refusals: LEG_REFUSALS },
    Entry { name: "host leg", results: 4, endings: &[1, 2, 4], refusals: LEG_REFUSALS },
    Entry { name: "walk", results: 5, endings: &[1, 2, 3], refusals: LEG_REFUSALS },
    Entry { name: "write", results: 0, endings: &[], refusals: &[10, 11] },
    Entry { name: "count", results: 1, endings: &[], refusals: &[10, 11, 12] },
    Entry { name: "read", results: 10, endings: &[], refusals: &[10, 11, 12] },
];

/// A slice as it is lent: in bytes, low byte first.
#[derive(Clone, PartialEq, Eq, Debug)]
pub struct Lent {
    pub name: &'static str,
    /// Bytes of one element.
    pub element: usize,
    pub writable: bool,
    pub bytes: Vec<u8>,
}

impl Call {
    /// The entry's place in `ENTRIES`.
    pub fn entry(&self) -> usize {
        match self.given {
            Given::Prepare { .. } => 0,
            Given::Required { .. } => 1,
            Given::Leg { .. } => 2,
            Given::HostLeg { .. } => 3,
            Given::Walk { .. } => 4,
            Given::Write { .. } => 5,
            Given::Count { .. } => 6,
            Given::Read { .. } => 7,
        }
    }

    /// The numbers that are handed over, in the order of the C declaration.
    pub fn numbers(&self) -> Vec<(&'static str, u64)> {
        let named: Vec<(&'static str, usize)> = match &self.given {
            Given::Prepare { floor, goal, .. } => [&sizes(floor)[..], &[("goal", *goal)]].concat(),
            Given::Required { floor, start, goal } => [&sizes(floor)[..], &[("start", *start), ("goal", *goal)]].concat(),
            Given::Leg { maps, task, .. } => [&sizes(&maps.floor)[..], &[("cart", task.cart)], &settings(task)].concat(),
            Given::HostLeg { maps, task, .. } => [&sizes(&maps.floor)[..], &settings(task)].concat(),
            Given::Walk { maps, task, allowance, .. } => {
                [&sizes(&maps.floor)[..], &[("cart", task.cart)], &settings(task), &[("allowance", *allowance)]].concat()
            }
            Given::Write { record, .. } => return FIELDS.iter().copied().zip(record.numbers()).collect(),
            Given::Count { .. } => Vec::new(),
            Given::Read { number, .. } => vec![("number", *number)],
        };
        named.into_iter().map(|(name, number)| (name, number as u64)).collect()
    }

    /// The slices that are lent, in the order of the C declaration; the result array is the last where there is one.
    pub fn lent(&self) -> Vec<Lent> {
        let mut slices = match &self.given {
            Given::Prepare { est, .. } => vec![lent_16("estimates", est)],
            Given::Required { .. } => vec![],
            Given::Leg { maps, trail, .. } | Given::Walk { maps, trail, .. } => lent_maps(maps, trail),
            Given::HostLeg { cart, maps, trail, .. } => {
                let mut slices = vec![lent_cart(cart)];
                slices.extend(lent_maps(maps, trail));
                slices
            }
            Given::Write { room, .. } => vec![lent_8("room", true, room)],
            Given::Count { bytes } | Given::Read { bytes, .. } => vec![lent_8("bytes", false, bytes)],
        };
        if ENTRIES[self.entry()].results > 0 {
            let bytes = self.result.iter().flat_map(|number| number.to_le_bytes()).collect();
            slices.push(Lent { name: "result", element: 8, writable: true, bytes });
        }
        slices
    }

    /// The floor whose cells the maps of this call are drawn by.
    pub fn floor(&self) -> Option<Floor> {
        match &self.given {
            Given::Prepare { floor, .. } | Given::Required { floor, .. } => Some(*floor),
            Given::Leg { maps, .. } | Given::HostLeg { maps, .. } | Given::Walk { maps, .. } => Some(maps.floor),
            _ => None,
        }
    }

    /// Makes the call: answers 0 or the refusal's number, and leaves in the call what its memory holds afterwards.
    pub fn answer(&mut self, planner: &Planner) -> u8 {
        let numbers = match &mut self.given {
            Given::Prepare { floor, goal, est } => planner.prepare(*floor, *goal, est).map(|()| vec![]),
            Given::Required { floor, start, goal } => planner.required(*floor, *start, *goal).map(|figure| vec![figure as u64]),
            Given::Leg { maps, task, trail } => planner.leg(maps, *task, trail).map(leg_numbers),
            Given::HostLeg { cart, maps, task, trail } => planner.host_leg(cart, maps, *task, trail).map(leg_numbers),
            Given::Walk { maps, task, allowance, trail } => planner.walk(maps, *task, *allowance, trail).map(|walk| {
                let counts = [walk.cell, walk.moves, walk.legs.len()].map(|number| number as u64);
                vec![walk.ending as u64, counts[0], counts[1], counts[2], walk.opened]
            }),
            Given::Write { record, room } => planner.write(record, room).map(|()| vec![]),
            Given::Count { bytes } => planner.count(bytes).map(|count| vec![count as u64]),
            Given::Read { bytes, number } => planner.read(bytes, *number).map(|record| record.numbers()),
        };
        match numbers {
            Ok(numbers) => {
                self.result = numbers;
                0
            }
            Err(refusal) => {
                self.refuse(planner);
                refusal
            }
        }
    }

    /// The result on a refusal: the cart as given, where there is one, and 0 for every other number.
    fn refuse(&mut self, planner: &Planner) {
        if planner.is(Wrong::RefusalUnanswered) {
            return;
        }
        self.result = vec![0; ENTRIES[self.entry()].results];
        if planner.is(Wrong::CartNotGivenBack) {
            return;
        }
        match &self.given {
            Given::Leg { task, .. } | Given::Walk { task, .. } => self.result[1] = task.cart as u64,
            Given::HostLeg { cart, .. } => self.result[1] = u64::from(cart.cell),
            _ => {}
        }
    }
}

/// A record's fields in the layout's order.
const FIELDS: [&str; 10] = ["serial", "cart", "start", "goal", "ending", "last", "moves", "required", "lookahead", "limit"];

fn sizes(floor: &Floor) -> [(&'static str, usize); 2] {
    [("width", floor.width), ("height", floor.height)]
}

fn settings(task: &Task) -> [(&'static str, usize); 3] {
    [("goal", task.goal), ("lookahead", task.lookahead), ("limit", task.limit)]
}

fn leg_numbers(leg: Leg) -> Vec<u64> {
    vec![leg.ending as u64, leg.cell as u64, leg.moves as u64, leg.opened as u64]
}

fn lent_maps(maps: &Maps, trail: &[u16]) -> Vec<Lent> {
    vec![
        lent_8("plan", false, &maps.plan),
        lent_8("known", true, &maps.known),
        lent_16("estimates", &maps.est),
        lent_16("trail", trail),
    ]
}

fn lent_cart(cart: &Cart) -> Lent {
    let numbers = [cart.cell, cart.moves, cart.opened, cart.legs];
    let bytes = numbers.iter().flat_map(|number| number.to_le_bytes()).collect();
    Lent { name: "cart record", element: 4, writable: true, bytes }
}

fn lent_8(name: &'static str, writable: bool, bytes: &[u8]) -> Lent {
    Lent { name, element: 1, writable, bytes: bytes.to_vec() }
}

fn lent_16(name: &'static str, numbers: &[u16]) -> Lent {
    let bytes = numbers.iter().flat_map(|number| number.to_le_bytes()).collect();
    Lent { name, element: 2, writable: true, bytes }
}
