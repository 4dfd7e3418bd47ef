//! What the comparison of trip printers stands on: a seed decides its texts, they have every outcome, they show each wrong
//! printer, and the command tells a difference by its exit status.

use std::process::{Command, Output};

use independent::cases::texts::text;
use independent::printer::{trip, LONG_TEXT};
use independent::wrong_printers::{Printer, ALL};

/// As many texts as the gate compares.
const TEXTS: u64 = 500;

fn texts(seed: u64) -> Vec<Vec<u8>> {
    (0..TEXTS).map(|number| text(seed, number)).collect()
}

fn compare(arguments: &[&str], wrong: &str) -> Output {
    let independent = env!("CARGO_BIN_EXE_independent");
    let mut command = Command::new(independent);
    command.arg("trips").args(arguments).env("WEXLUND_WRONG_TRIP", wrong);
    command.output().expect("the program starts")
}

/// The comparison with the program's own printer.
fn compare_own(wrong: &str) -> Output {
    compare(&["1", "40", "--", env!("CARGO_BIN_EXE_independent"), "trip"], wrong)
}

#[test]
fn a_seed_decides_its_texts() {
    let texts_of_4 = texts(4);
    assert_eq!(texts_of_4, texts(4));
    assert_ne!(texts_of_4, texts(5));
}

#[test]
fn texts_are_of_every_kind() {
    let all = texts(1);
    let outputs: Vec<String> = all.iter().map(|text| trip(text)).collect();
    for line in ["end arrived ", "end cut off ", "end spent ", "refused 1", "refused 3", "refused 4", "refused 8", "bad input"] {
        let there = outputs.iter().filter(|output| output.lines().any(|printed| printed.starts_with(line)));
        assert!(there.count() >= 10, "too few texts print {:?}", line);
    }
    assert!(all.iter().any(Vec::is_empty));
    for byte in [0, b'\r', b'\t', b'+', 255] {
        assert!(all.iter().any(|text| text.contains(&byte)), "no text has the byte {}", byte);
    }
    // Long ones are no trips, and some of them are refused all the same.
    let long = all.iter().zip(&outputs).filter(|(text, _)| text.len() > LONG_TEXT);
    assert!(long.clone().all(|(_, output)| output == "bad input\n" || output == "refused 1\n"));
    assert!(long.count() >= 5);
}

#[test]
fn each_wrong_printer_prints_something_else() {
    let texts = texts(1);
    let right: Vec<String> = texts.iter().map(|text| trip(text)).collect();
    for (_, name, words) in ALL {
        let printer = Printer::named(name).expect("each wrong printer has its name");
        let wrong = |at: usize| {
            let printed = printer.trip(&texts[at]);
            printed != right[at] || printer.status(&printed) != 0
        };
        assert!((0..texts.len()).any(wrong), "no text shows {} ({})", name, words);
    }
}

#[test]
fn names_of_wrong_printers() {
    let mut names: Vec<&str> = ALL.iter().map(|entry| entry.1).collect();
    names.push("nothing");
    assert!(names.iter().all(|name| Printer::named(name).is_some() && !name.contains(' ')));
    assert!(Printer::named("no such printer").is_none());
    let count = names.len();
    names.sort_unstable();
    names.dedup();
    assert_eq!(names.len(), count, "two printers have one name");
}

#[test]
fn the_command_tells_by_its_status() {
    let right = compare_own("nothing");
    assert_eq!(right.status.code(), Some(0));
    assert!(right.stdout.ends_with(b"\ncompared 40 texts with seed 1: no difference\n"));
    for (wrong, what) in [("legs-from-0", "other output"), ("refusal-status", "the command ended with exit status: 1")] {
        let differs = compare_own(wrong);
        assert_eq!(differs.status.code(), Some(1));
        let said = String::from_utf8_lossy(&differs.stdout);
        assert!(said.starts_with("text ") && said.contains(&format!(" of seed 1: {}\nthe text:\n", what)), "{}", said);
        assert!(said.contains("\nexpected:\n") && said.contains("\ncame:\n"), "{}", said);
    }
    assert_eq!(compare(&["1", "1", "--", "/no/such/command"], "nothing").status.code(), Some(2));
    assert_eq!(compare(&["1", "x", "--", "true"], "nothing").status.code(), Some(2));
    assert_eq!(compare(&["1", "1", "--"], "nothing").status.code(), Some(2));
}
