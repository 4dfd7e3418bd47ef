//! The stub: this program's planners behind the C interface, so that driver.c can be linked with them in the place of the proved
//! planner. The environment variable WEXLUND_WRONG names the planner; `nothing` is the right one.
//!
//! Each entry copies what it is lent, makes the call, and copies back what may be written. Faults of the interface itself are
//! committed here: memory touched past its end, numbers cut short, a refusal that changes something.
#![allow(unsafe_code)]

use std::slice;

use crate::entries::{Call, Given};
use crate::floor::{Floor, Maps};
use crate::host::Cart;
use crate::leg::Task;
use crate::records::Record;
use crate::wrong::{Planner, Wrong};

/// The planner that the environment names. Another name ends the program: a comparison with nothing must not pass.
fn planner() -> Planner {
    let name = std::env::var("WEXLUND_WRONG").unwrap_or_default();
    match Planner::named(&name) {
        Some(planner) => planner,
        None => {
            eprintln!("stub: WEXLUND_WRONG names no planner: '{}'", name);
            std::process::exit(3);
        }
    }
}

/// A slice that the caller lends for writing.
struct Lent<T> {
    at: *mut T,
    n: usize,
}

impl<T: Copy> Lent<T> {
    unsafe fn copy(&self) -> Vec<T> {
        slice::from_raw_parts(self.at, self.n).to_vec()
    }

    unsafe fn give_back(&self, values: &[T]) {
        slice::from_raw_parts_mut(self.at, self.n).copy_from_slice(values);
    }
}

/// The memory of a leg or walk.
struct LentMaps {
    plan: *const u8,
    plan_n: usize,
    known: Lent<u8>,
    est: Lent<u16>,
    trail: Lent<u16>,
}

impl LentMaps {
    unsafe fn copy(&self, planner: &Planner, width: usize, height: usize) -> (Maps, Vec<u16>) {
        let plan = slice::from_raw_parts(self.plan, self.plan_n).to_vec();
        let maps = Maps { floor: sizes(planner, width, height), plan, known: self.known.copy(), est: self.est.copy() };
        (maps, self.trail.copy())
    }

    /// Copies back what a leg or walk may write, and commits the faults that touch memory.
    unsafe fn give_back(&self, planner: &Planner, maps: &Maps, trail: &[u16], refused: bool) {
        if planner.is(Wrong::NeverWrites) {
            return;
        }
        self.known.give_back(&maps.known);
        self.est.give_back(&maps.est);
        self.trail.give_back(trail);
        if planner.is(Wrong::WritesBehind) {
            *self.est.at.cast::<u8>().add(2 * self.est.n) = 0;
        }
        if planner.is(Wrong::WritesBehindTrail) {
            *self.trail.at.cast::<u8>().add(2 * self.trail.n) = 0;
        }
        if planner.is(Wrong::WritesBefore) {
            *self.known.at.sub(1) = 0;
        }
        if planner.is(Wrong::ReadsBehind) {
            self.plan.add(self.plan_n).read_volatile();
        }
        if planner.is(Wrong::WritesPlan) && self.plan_n > 0 {
            let plan = self.plan as *mut u8;
            plan.write_volatile(plan.read_volatile());
        }
        if planner.is(Wrong::RefusalChanges) && refused && self.known.n > 0 {
            *self.known.at ^= 1;
        }
    }
}

fn sizes(planner: &Planner, width: usize, height: usize) -> Floor {
    let mut bits = usize::MAX;
    if planner.is(Wrong::SidesOf16Bits) {
        bits = 0xFFFF;
    }
    if planner.is(Wrong::SidesOf32Bits) {
        bits = 0xFFFF_FFFF;
    }
    Floor { width: width & bits, height: height & bits }
}

fn cell(planner: &Planner, cell: usize) -> usize {
    if planner.is(Wrong::CellsOf16Bits) {
        return cell & 0xFFFF;
    }
    cell
}

fn setting(planner: &Planner, setting: usize) -> usize {
    if planner.is(Wrong::SettingsOf32Bits) {
        return setting & 0xFFFF_FFFF;
    }
    setting
}

fn task(planner: &Planner, cart: usize, goal: usize, lookahead: usize, limit: usize) -> Task {
    if planner.is(Wrong::Hangs) && lookahead == 4096 {
        loop {
            std::thread::yield_now();
        }
    }
    if planner.is(Wrong::Dies) && lookahead == 4096 {
        std::process::abort();
    }
    let (lookahead, limit) = if planner.is(Wrong::SettingsSwapped) { (limit, lookahead) } else { (lookahead, limit) };
    Task {
        cart: cell(planner, cart),
        goal: cell(planner, goal),
        lookahead: setting(planner, lookahead),
        limit: setting(planner, limit),
    }
}

/// Makes the call and writes its result array.
unsafe fn answer(planner: &Planner, given: Given, result: Lent<u64>) -> (u8, Given) {
    let mut call = Call { given, result: result.copy() };
    let refusal = call.answer(planner);
    result.give_back(&call.result);
    if planner.is(Wrong::WritesBeforeResult) && result.n > 0 {
        *result.at.cast::<u8>().sub(1) = 0;
    }
    (refusal, call.given)
}

/// The result array of an entry that has none.
fn no_result() -> Lent<u64> {
    Lent { at: std::ptr::NonNull::dangling().as_ptr(), n: 0 }
}

/// # Safety
/// As for every entry: each pointer is valid for its count of elements, none is null, and no two slices overlap.
#[no_mangle]
pub unsafe extern "C" fn wexlund_prepare(width: usize, height: usize, goal: usize, est: *mut u16, est_n: usize) -> u8 {
    let planner = planner();
    let lent = Lent { at: est, n: est_n };
    let floor = sizes(&planner, width, height);
    let given = Given::Prepare { floor, goal: cell(&planner, goal), est: lent.copy() };
    let (refusal, given) = answer(&planner, given, no_result());
    if let Given::Prepare { est, .. } = given {
        lent.give_back(&est);
    }
    refusal
}

/// # Safety
/// As for `wexlund_prepare`.
#[no_mangle]
pub unsafe extern "C" fn wexlund_required(width: usize, height: usize, start: usize, goal: usize, result: *mut u64) -> u8 {
    let planner = planner();
    let floor = sizes(&planner, width, height);
    let given = Given::Required { floor, start: cell(&planner, start), goal: cell(&planner, goal) };
    answer(&planner, given, Lent { at: result, n: 1 }).0
}

/// # Safety
/// As for `wexlund_prepare`.
#[no_mangle]
pub unsafe extern "C" fn wexlund_leg(
    width: usize,
    height: usize,
    plan: *const u8,
    plan_n: usize,
    known: *mut u8,
    known_n: usize,
    est: *mut u16,
    est_n: usize,
    cart: usize,
    goal: usize,
    lookahead: usize,
    limit: usize,
    trail: *mut u16,
    trail_n: usize,
    result: *mut u64,
) -> u8 {
    let planner = planner();
    let (known, est, trail) = (Lent { at: known, n: known_n }, Lent { at: est, n: est_n }, Lent { at: trail, n: trail_n });
    let lent = LentMaps { plan, plan_n, known, est, trail };
    let (maps, trail) = lent.copy(&planner, width, height);
    let given = Given::Leg { maps, task: task(&planner, cart, goal, lookahead, limit), trail };
    let (refusal, given) = answer(&planner, given, Lent { at: result, n: 4 });
    if let Given::Leg { maps, trail, .. } = given {
        lent.give_back(&planner, &maps, &trail, refusal != 0);
    }
    refusal
}

/// # Safety
/// As for `wexlund_prepare`; the cart record is four numbers.
#[no_mangle]
pub unsafe extern "C" fn wexlund_host_leg(
    cart: *mut u32,
    width: usize,
    height: usize,
    plan: *const u8,
    plan_n: usize,
    known: *mut u8,
    known_n: usize,
    est: *mut u16,
    est_n: usize,
    goal: usize,
    lookahead: usize,
    limit: usize,
    trail: *mut u16,
    trail_n: usize,
    result: *mut u64,
) -> u8 {
    let planner = planner();
    let (known, est, trail) = (Lent { at: known, n: known_n }, Lent { at: est, n: est_n }, Lent { at: trail, n: trail_n });
    let lent = LentMaps { plan, plan_n, known, est, trail };
    let (maps, trail) = lent.copy(&planner, width, height);
    let lent_cart = Lent { at: cart, n: 4 };
    let numbers = lent_cart.copy();
    let cart = Cart { cell: numbers[0], moves: numbers[1], opened: numbers[2], legs: numbers[3] };
    let given = Given::HostLeg { cart, maps, task: task(&planner, 0, goal, lookahead, limit), trail };
    let (refusal, given) = answer(&planner, given, Lent { at: result, n: 4 });
    if let Given::HostLeg { cart, maps, trail, .. } = given {
        lent.give_back(&planner, &maps, &trail, refusal != 0);
        lent_cart.give_back(&[cart.cell, cart.moves, cart.opened, cart.legs]);
    }
    refusal
}

/// # Safety
/// As for `wexlund_prepare`.
#[no_mangle]
pub unsafe extern "C" fn wexlund_walk(
    width: usize,
    height: usize,
    plan: *const u8,
    plan_n: usize,
    known: *mut u8,
    known_n: usize,
    est: *mut u16,
    est_n: usize,
    cart: usize,
    goal: usize,
    lookahead: usize,
    limit: usize,
    allowance: usize,
    trail: *mut u16,
    trail_n: usize,
    result: *mut u64,
) -> u8 {
    let planner = planner();
    let (known, est, trail) = (Lent { at: known, n: known_n }, Lent { at: est, n: est_n }, Lent { at: trail, n: trail_n });
    let lent = LentMaps { plan, plan_n, known, est, trail };
    let (maps, trail) = lent.copy(&planner, width, height);
    let task = task(&planner, cart, goal, lookahead, limit);
    let given = Given::Walk { maps, task, allowance: setting(&planner, allowance), trail };
    let (refusal, given) = answer(&planner, given, Lent { at: result, n: 5 });
    if let Given::Walk { maps, trail, .. } = given {
        lent.give_back(&planner, &maps, &trail, refusal != 0);
    }
    refusal
}

/// # Safety
/// As for `wexlund_prepare`.
#[no_mangle]
pub unsafe extern "C" fn wexlund_record_write(
    serial: u16,
    cart: u16,
    start: u16,
    goal: u16,
    ending: u8,
    last: u16,
    moves: u32,
    required: u16,
    lookahead: u16,
    limit: u16,
    room: *mut u8,
    room_n: usize,
) -> u8 {
    let planner = planner();
    let lent = Lent { at: room, n: room_n };
    let record = Record { serial, cart, start, goal, ending, last, moves, required, lookahead, limit };
    let (refusal, given) = answer(&planner, Given::Write { record, room: lent.copy() }, no_result());
    if let Given::Write { room, .. } = given {
        lent.give_back(&room);
        if planner.is(Wrong::WritesBehindRoom) {
            *lent.at.add(lent.n) = 0;
        }
    }
    refusal
}

/// # Safety
/// As for `wexlund_prepare`.
#[no_mangle]
pub unsafe extern "C" fn wexlund_record_count(bytes: *const u8, bytes_n: usize, result: *mut u64) -> u8 {
    let bytes = slice::from_raw_parts(bytes, bytes_n).to_vec();
    answer(&planner(), Given::Count { bytes }, Lent { at: result, n: 1 }).0
}

/// # Safety
/// As for `wexlund_prepare`.
#[no_mangle]
pub unsafe extern "C" fn wexlund_record_read(bytes: *const u8, bytes_n: usize, number: usize, result: *mut u64) -> u8 {
    let planner = planner();
    let bytes = slice::from_raw_parts(bytes, bytes_n).to_vec();
    let number = if planner.is(Wrong::NumberOf32Bits) { number & 0xFFFF_FFFF } else { number };
    answer(&planner, Given::Read { bytes, number }, Lent { at: result, n: 10 }).0
}
