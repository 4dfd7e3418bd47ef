//! The trip printer: the document's example byte for byte, the text faults, the refusals, and any bytes at all.

use independent::cases::rng::Rng;
use independent::printer::trip;

const EXAMPLE: &str = "3 2 0 2 1 1 100\n.#.\n...\n";
const PRINTED: &str = "leg 1 opened 1 moves 1 cell 3
leg 2 opened 1 moves 1 cell 4
leg 3 opened 1 moves 1 cell 5
leg 4 opened 1 moves 1 cell 2
end arrived moves 4 legs 4 opened 4
estimates 4 1 0 3 2 1
";

fn prints(input: &str, output: &str) {
    assert_eq!(trip(input.as_bytes()), output, "for {:?}", input);
}

#[test]
fn the_documents_example() {
    prints(EXAMPLE, PRINTED);
}

#[test]
fn a_dash_is_a_limit_of_1_and_leading_zeros_are_allowed() {
    prints("3 2 0 2 1 - 100\n.#.\n...\n", PRINTED);
    prints("03 002 0 2 000000001 1 000000100\n.#.\n...\n", PRINTED);
}

#[test]
fn the_other_endings() {
    prints(
        "3 1 0 2 2 4096 100\n..#\n",
        "leg 1 opened 2 moves 1 cell 1\nleg 2 opened 2 moves 0 cell 1\nend cut off moves 1 legs 2 opened 4\nestimates 2 1 0\n",
    );
    prints(
        "4 1 0 3 1 1 2\n....\n",
        "leg 1 opened 1 moves 1 cell 1\nleg 2 opened 1 moves 1 cell 2\nend spent moves 2 legs 2 opened 2\nestimates 3 2 1 0\n",
    );
}

/// With no moves allowed no leg is made.
#[test]
fn an_allowance_of_0() {
    prints("2 1 0 1 1 1 0\n..\n", "end spent moves 0 legs 0 opened 0\nestimates 1 0\n");
    prints("2 1 1 1 1 1 0\n..\n", "end arrived moves 0 legs 0 opened 0\nestimates 1 0\n");
}

#[test]
fn faults_of_the_first_line() {
    let lines = [
        "",
        "3 2 0 2 1 1",
        "3 2 0 2 1 1 100 1",
        // Ten digits, and an allowance above 16,384.
        "3 2 0 2 1 1 0000000100",
        "0000000003 2 0 2 1 1 100",
        "3 2 0 2 1 1 16385",
        // A dash in another place, or with more.
        "- 2 0 2 1 1 100",
        "3 2 0 2 - 1 100",
        "3 2 0 2 1 1 -",
        "3 2 0 2 1 -1 100",
        "3 2 0 2 1 -- 100",
        // Other white space and signs.
        " 3 2 0 2 1 1 100",
        "3 2 0 2 1 1 100 ",
        "3  2 0 2 1 1 100",
        "3\t2 0 2 1 1 100",
        "+3 2 0 2 1 1 100",
        "3 2 0 2 1 1 100\r",
        "3 2 0 2 1 1 1e2",
        "3 2 0 2 1 1 \u{0661}",
    ];
    for line in lines {
        prints(&format!("{}\n.#.\n...\n", line), "bad input\n");
    }
    prints("", "bad input\n");
    prints("3 2 0 2 1 1 100", "bad input\n");
    prints("3 2 0 2 1 1 16384\n.#.\n...\n", PRINTED);
}

#[test]
fn faults_of_the_rows() {
    let rows = [
        "",
        ".#.\n",
        ".#.\n...",
        ".#.\n...\n\n",
        ".#.\n...\n.",
        ".#.\n...\n...\n",
        ".#.\n....\n",
        ".#.\n..\n",
        ".#.\n..\n.\n",
        ".#.\r\n...\n",
        ".#.\n..x\n",
        ".#.\n.. \n",
        ".#....\n",
        "\n.#.\n...",
    ];
    for text in rows {
        prints(&format!("3 2 0 2 1 1 100\n{}", text), "bad input\n");
    }
}

#[test]
fn refusals_and_their_order() {
    // Refusal 1 comes after the first line's text and before the rows'.
    prints("65 1 0 0 1 1 16385\n", "bad input\n");
    prints("65 1 0 0 1 1 16384\n", "refused 1\n");
    prints("65 1 0 0 1 1 16384\nno floor has \0 these\n", "refused 1\n");
    prints("65 1 0 0 1 1 16384", "bad input\n");
    prints("0 1 0 0 1 1 1\n\n", "refused 1\n");
    prints("999999999 999999999 0 0 1 1 1\n", "refused 1\n");
    // The others come after the rows' text.
    prints("2 1 2 0 0 0 1\n.x\n", "bad input\n");
    prints("2 1 2 0 0 0 1\n..\n", "refused 3\n");
    prints("2 1 0 2 0 0 1\n..\n", "refused 3\n");
    prints("2 1 0 999999999 1 1 1\n..\n", "refused 3\n");
    prints("2 1 0 1 0 1 1\n#.\n", "refused 4\n");
    prints("2 1 0 1 4097 1 1\n..\n", "refused 4\n");
    prints("2 1 0 1 1 0 0\n..\n", "refused 4\n");
    prints("2 1 0 1 1 999999999 1\n..\n", "refused 4\n");
    prints("2 1 0 1 1 1 1\n#.\n", "refused 8\n");
    prints("2 1 0 0 1 1 1\n#.\n", "refused 8\n");
}

/// A blocked goal is no refusal.
#[test]
fn a_blocked_goal_is_cut_off() {
    prints("2 1 0 1 1 1 9\n.#\n", "leg 1 opened 1 moves 0 cell 0\nend cut off moves 0 legs 1 opened 1\nestimates 1 0\n");
}

#[test]
fn any_bytes_give_one_of_the_three_outputs() {
    let mut walked = 0;
    for number in 0..20_000 {
        let mut rng = Rng::new(3, number);
        let mut input = EXAMPLE.as_bytes().to_vec();
        for _ in 0..rng.below(5) {
            let at = rng.below(input.len());
            let byte = rng.pick(b"0123456789 .#-\n\r\0\xFF");
            match rng.below(3) {
                0 => input[at] = byte,
                1 => input.insert(at, byte),
                _ => input.truncate(at + 1),
            }
        }
        let output = trip(&input);
        let refusal = output.strip_prefix("refused ").map(|rest| ["1\n", "3\n", "4\n", "8\n"].contains(&rest));
        let end_and_estimates = output.contains("end ") && output.contains("\nestimates ") && output.ends_with('\n');
        assert!(output == "bad input\n" || refusal == Some(true) || end_and_estimates, "for {:?}: {:?}", input, output);
        walked += u32::from(end_and_estimates);
    }
    assert!(walked > 1000, "only {} inputs were walked", walked);
}
