//! Document 01 once more: the planner, the trip records and the trip printer, written from the document alone, plainly and
//! without care for speed. The proved planner is held against it.
//!
//! `floor` to `printer` follow the document section by section. `wrong` has the planners that break one rule, and
//! `wrong_printers` such trip printers. `entries` says what each entry of the C interface is given and lends, `stub` offers these
//! entries to C, `cases` makes calls and texts at random, and `compare` holds a driver's answers, or what a printer prints,
//! against what is right.
#![deny(unsafe_code)]

#[cfg(not(target_pointer_width = "64"))]
compile_error!("the C interface's sizes have 64 bits");

pub mod cases;
pub mod compare;
pub mod entries;
pub mod floor;
pub mod host;
pub mod leg;
pub mod printer;
pub mod records;
pub mod refusals;
pub mod stub;
pub mod walk;
pub mod wrong;
pub mod wrong_printers;
