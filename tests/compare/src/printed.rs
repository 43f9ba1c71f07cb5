//! The program on inputs of its own: the printed cases of the order, and inputs at its limits.

use crate::case::{Call, Case};
use crate::program::{path, run, Way};
use crate::tally::Tally;

const PRINTED: [(&str, &str); 9] = [
    (
        "[0 1 2 -1 0 3 4 -1]",
        "0 0 2 6 6 0 1\n[0, 1, 2, -1, 3, 4, 5, -1]\n[0, 1, 2, 0, 3, 4]\n",
    ),
    ("[0 1 2 -1 0 3 0 -1]", "5 6 0 0 0 0 0\n"),
    ("", "11 0 0 0 0 0 0\n"),
    ("[]", "0 0 0 0 0 0 0\n[]\n[]\n"),
    ("[2147483647]", "2 0 0 0 0 0 0\n"),
    ("[-2147483648]", "3 0 0 0 0 0 0\n"),
    ("[65536 0 1]", "2 0 0 0 0 0 0\n"),
    ("[65535 0 1]", "0 0 1 3 3 0 0\n[0, 1, 2]\n[65535, 0, 1]\n"),
    ("[2147483648]", "12 1 0 0 0 0 0\n"),
];

/// Whether the program is there.
pub fn is_there(tally: &mut Tally) -> bool {
    let there = path().exists();
    if !there {
        let what = "crates/manifold/out/manifold is not there: build it, or set BRIMCLIF_PROGRAM";
        tally.fail(what, "program");
    }
    there
}

/// The printed cases, and inputs at the program's limits, in all ways of feeding.
pub fn inputs(tally: &mut Tally) {
    for (input, expected) in PRINTED {
        let printed = run(input.as_bytes(), Way::Pipe);
        if printed.as_deref() != Ok(expected.as_bytes()) {
            tally.fail(&format!("{input:?} prints {printed:?}"), "program");
        }
    }
    for input in at_limits() {
        for way in 0..3 {
            let case = Case::on_text(Call::Program, input.as_bytes(), way, 0);
            tally.try_case(&case, "program at its limits");
        }
    }
}

/// A list of three-cornered faces with so many entries, the last face perhaps cut short.
fn strip(entries: usize) -> String {
    let entry = |i: usize| match i % 4 {
        3 => "-1".to_string(),
        rest => (i / 4 + rest).to_string(),
    };
    let entries: Vec<String> = (0..entries).map(entry).collect();
    format!("[{}]", entries.join(" "))
}

/// An input filled up with a separator to so many bytes.
fn filled(input: &str, bytes: usize, separator: &str) -> String {
    input.to_string() + &separator.repeat(bytes - input.len())
}

fn at_limits() -> Vec<String> {
    let pair = PRINTED[0].0;
    let mut inputs: Vec<String> = PRINTED.iter().map(|(input, _)| input.to_string()).collect();
    inputs.extend([1_023, 1_024, 1_025, 1_026, 1_028].map(strip));
    for bytes in [16_383, 16_384, 16_385, 20_000, 100_000] {
        inputs.push(filled(pair, bytes, "\n"));
        inputs.push(filled("[0 1 2", bytes - 1, " ") + "]");
        inputs.push(filled("#", bytes, "x"));
        inputs.push(filled(&strip(1_025), bytes, ","));
    }
    inputs.push(format!("[{}]", "65535 ".repeat(1_024)));
    inputs.push(format!("[{}]", "-2147483648 ".repeat(1_024)));
    inputs.push(format!("[{}]", "0 1 2 -1 ".repeat(256)));
    inputs
}
