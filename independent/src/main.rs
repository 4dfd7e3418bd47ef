//! The independent program. Use:
//!
//!     independent trip < FILE
//!         The trip printer of document 01 on any bytes: a first line `width height start goal lookahead limit allowance`, then
//!         as many rows of `.` and `#` as the floor is high. Prints legs, end and estimates, or `bad input`, or `refused n`.
//!
//!     independent compare SEED COUNT -- COMMAND...
//!         Starts COMMAND, which is driver.c linked with a planner, sends it COUNT calls made at random from SEED, and holds each
//!         number, cell and byte that comes back against what is right. The same seed gives the same calls. The first difference
//!         is printed with its whole call. `src/compare/driver.rs` has the protocol.
//!
//!     independent trips SEED COUNT -- COMMAND...
//!         Runs COMMAND once for each of COUNT texts made at random from SEED, lawful and damaged ones, with the text as standard
//!         input, and holds what it prints against what is right; its exit status has to be 0. The first difference is printed
//!         with its whole text. A run may take 10 seconds.
//!
//!     independent wrong
//!         Lists the wrong planners, one a line: the name, and what it does wrong. The stub, linked with driver.c in the place of
//!         a planner, plays the one whose name the environment variable WEXLUND_WRONG holds (`nothing`: the right one).
//!
//!     independent wrong-trips
//!         Lists the wrong printers in the same way. `independent trip` plays the one that WEXLUND_WRONG_TRIP names.
//!
//! Exit status: 0 in order; 1 a difference, or too few calls or texts of some outcome; 2 the comparison could not be made, or
//! wrong use.

use std::env;
use std::io::{self, Read, Write};
use std::process::exit;

use independent::wrong_printers::{self, Printer};
use independent::{compare, wrong};

fn main() {
    let words: Vec<String> = env::args().skip(1).collect();
    let words: Vec<&str> = words.iter().map(String::as_str).collect();
    let status = match words.as_slice() {
        ["trip"] => trip(),
        ["wrong"] => list(wrong::ALL.iter().map(|(_, name, words)| (*name, *words))),
        ["wrong-trips"] => list(wrong_printers::ALL.iter().map(|(_, name, words)| (*name, *words))),
        [what @ ("compare" | "trips"), seed, count, "--", program, arguments @ ..] => match (seed.parse(), count.parse()) {
            (Ok(seed), Ok(count)) if *what == "compare" => compare::run(seed, count, program, arguments),
            (Ok(seed), Ok(count)) => compare::trips::run(seed, count, program, arguments),
            _ => usage(),
        },
        _ => usage(),
    };
    exit(status);
}

fn trip() -> i32 {
    let name = env::var("WEXLUND_WRONG_TRIP").unwrap_or_else(|_| "nothing".to_string());
    let printer = match Printer::named(&name) {
        Some(printer) => printer,
        None => {
            eprintln!("trip: there is no wrong printer {}", name);
            return 2;
        }
    };
    let mut input = Vec::new();
    if io::stdin().read_to_end(&mut input).is_err() {
        return 2;
    }
    let output = printer.trip(&input);
    match print(&output) {
        Ok(()) => printer.status(&output),
        Err(_) => 2,
    }
}

/// A line for each: its name and a few words.
fn list<'a>(entries: impl Iterator<Item = (&'a str, &'a str)>) -> i32 {
    let lines: Vec<String> = entries.map(|(name, words)| format!("{} {}\n", name, words)).collect();
    i32::from(print(&lines.concat()).is_err()) * 2
}

fn print(text: &str) -> io::Result<()> {
    let mut output = io::stdout();
    output.write_all(text.as_bytes())?;
    output.flush()
}

fn usage() -> i32 {
    eprintln!(
        "use: independent trip < FILE | independent compare SEED COUNT -- COMMAND... | \
         independent trips SEED COUNT -- COMMAND... | independent wrong | independent wrong-trips"
    );
    2
}
