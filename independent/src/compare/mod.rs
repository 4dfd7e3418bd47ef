//! The comparison: calls made at random go to a driver, and what comes back is held against what is right.

mod driver;
mod show;
mod table;
pub mod trips;

use crate::cases;
use crate::entries::{Call, ENTRIES};
use crate::wrong::Planner;
use driver::{Driver, Reply};
use table::Table;

/// From as many calls on, each outcome of each entry has to be there often enough.
const ENOUGH: u64 = 20_000;

/// Compares as many calls, and answers the exit status: 0 no difference, 1 a difference or too few calls of some outcome, 2 the
/// driver can't be used.
pub fn run(seed: u64, count: u64, program: &str, arguments: &[&str]) -> i32 {
    let mut driver = match Driver::start(program, arguments) {
        Ok(driver) => driver,
        Err(why) => {
            eprintln!("compare: {}: {}", program, why);
            return 2;
        }
    };
    let mut table = Table::default();
    for number in 0..count {
        let call = cases::call(seed, number);
        driver.send(&call, driver_edges(seed, number));
        let mut right = call.clone();
        let returned = right.answer(&Planner::right());
        table.add(&right, returned);
        let reply = driver.reply(&call);
        if let Some(difference) = Difference::between(&right, returned, &reply) {
            println!("case {} of seed {}, {}: {}", number + 1, seed, ENTRIES[call.entry()].name, difference.what);
            println!("{}{}", show::call(&call), difference.details);
            return 1;
        }
    }
    if let Err(why) = driver.end() {
        println!("after {} cases with seed {}: {}", count, seed, why);
        return 1;
    }
    println!("{}", table.text());
    if count >= ENOUGH && !table.full() {
        println!("compared {} cases with seed {}: too few of some outcome, marked by !", count, seed);
        return 1;
    }
    println!("compared {} cases with seed {}: no difference", count, seed);
    0
}

/// For each slice a bit: whether its end or its start touches a guard page.
fn driver_edges(seed: u64, number: u64) -> u8 {
    cases::rng::Rng::new(!seed, number).any() as u8
}

/// How an answer isn't the right one: in a few words, and what was expected and what came.
struct Difference {
    what: String,
    details: String,
}

impl Difference {
    /// `right` is the call as it has to be afterwards, `returned` what it has to return.
    fn between(right: &Call, returned: u8, reply: &Result<Reply, String>) -> Option<Difference> {
        let expected = format!("expected: returns {}", returned);
        let reply = match reply {
            Ok(reply) => reply,
            Err(why) => return Some(Difference { what: why.clone(), details: format!("{}\n    came: {}", expected, why) }),
        };
        let mut what = Vec::new();
        let mut details = format!("{}\n    came: returns {}", expected, reply.returned);
        if reply.returned != returned {
            what.push("returned number");
        }
        for (slice, came) in right.lent().iter().zip(&reply.lent) {
            if &slice.bytes != came {
                what.push(slice.name);
            }
            details.push_str(&show::against(slice, came));
        }
        if what.is_empty() {
            return None;
        }
        Some(Difference { what: format!("other {}", what.join(", ")), details })
    }
}
