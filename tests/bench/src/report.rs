//! The results as a page of Markdown.

use crate::measure::Who;
use crate::results::{Results, Row, SIZE_NAMES};
use lists::meshes::FAMILIES;
use std::process::Command;

/// What is written by hand stands from this line on, and is kept.
pub const NOTES: &str = "## Notes";

/// The machine's model name as `lscpu` gives it.
fn machine() -> String {
    let output = Command::new("lscpu").output();
    let text = output.map_or(String::new(), |output| {
        String::from_utf8_lossy(&output.stdout).into_owned()
    });
    let field = |name: &str| {
        let line = text.lines().find(|line| line.starts_with(name));
        let value = line.and_then(|line| line.split_once(':'));
        value.map_or("unknown".to_string(), |(_, value)| value.trim().to_string())
    };
    format!("{}, {} processors", field("Model name"), field("CPU(s)"))
}

fn compiler() -> String {
    let output = Command::new("rustc").arg("--version").output();
    output.map_or("unknown".to_string(), |output| {
        String::from_utf8_lossy(&output.stdout).trim().to_string()
    })
}

/// A table line of some cells.
fn line(cells: &[String]) -> String {
    format!("| {} |\n", cells.join(" | "))
}

/// A table of the families, a column for each size, with a line of means.
fn by_size(
    results: &Results,
    value: impl Fn(&Row) -> f64,
    mean: impl Fn(usize) -> f64,
    digits: usize,
) -> String {
    let shown = |number: f64| format!("{number:.digits$}");
    let mut table = line(
        &[&["family"][..], &SIZE_NAMES]
            .concat()
            .iter()
            .map(|cell| cell.to_string())
            .collect::<Vec<_>>(),
    );
    table += "|---|---|---|---|---|\n";
    for (family, rows) in FAMILIES.iter().zip(&results.rows) {
        let values = rows.iter().map(|row| shown(value(row)));
        table += &line(&[vec![family.name.to_string()], values.collect()].concat());
    }
    let means = (0..SIZE_NAMES.len()).map(|size| shown(mean(size)));
    table + &line(&[vec!["**geometric mean**".to_string()], means.collect()].concat())
}

fn figures(results: &Results) -> String {
    let mut table = "| figure | asked | measured | |\n|---|---|---|---|\n".to_string();
    for figure in results.figures() {
        let verdict = if figure.reached {
            "reached"
        } else {
            "**missed**"
        };
        table += &line(&[
            figure.what,
            figure.asked,
            figure.measured,
            verdict.to_string(),
        ]);
    }
    table
}

/// All rivals at the largest size.
fn at_limit(results: &Results) -> String {
    let last = SIZE_NAMES.len() - 1;
    let mut table = "| family | corners | product | Rust, unchecked | HashMap | one touch |\n|---|---|---|---|---|---|\n".to_string();
    for (family, rows) in FAMILIES.iter().zip(&results.rows) {
        let row = rows[last];
        let mut cells = vec![family.name.to_string(), row.corners.to_string()];
        cells.extend(Who::ALL.map(|who| format!("{:.1}", row.ns(who))));
        table += &line(&cells);
    }
    let mut cells = vec!["**geometric mean**".to_string(), String::new()];
    cells.extend(Who::ALL.map(|who| format!("{:.1}", results.mean_ns(who, last))));
    table + &line(&cells)
}

fn limits(results: &Results) -> String {
    let mut table = "| call | ms | slowest on | stack, bytes |\n|---|---|---|---|\n".to_string();
    for most in &results.most {
        let (family, milliseconds) = &most.slowest;
        table += &line(&[
            most.call.to_string(),
            format!("{milliseconds:.3}"),
            family.clone(),
            most.stack.to_string(),
        ]);
    }
    table
}

/// The whole page; `notes` is what was written by hand before.
pub fn page(results: &Results, load: &str, notes: &str) -> String {
    let product = |row: &Row| row.ns(Who::Product);
    let to_baseline = |row: &Row| row.ratio(Who::Baseline, Who::Product);
    let to_rust = |row: &Row| row.ratio(Who::Product, Who::Unchecked);
    let growth = results.mean_ns(Who::Product, 3) / results.mean_ns(Who::Product, 1);
    [
        "# Benchmark of the cut\n".to_string(),
        "Every figure on this page was measured by one run of\n".to_string(),
        "    (cd tests && cargo run --release -p bench)\n".to_string(),
        format!(
            "which writes this page and the plot anew. Machine: {}; {}; load average {load}.\n",
            machine(),
            compiler()
        ),
        "The product is called through its static library. Beside it in the same run stand:\n".to_string(),
        "- *HashMap*: a `HashMap` of edges with union-find, and a `HashSet` for the repeats in a face, as a good Rust programmer would first write it;\n- *Rust, unchecked*: the same algorithm in Rust without bounds checks;\n- *one touch* of list, new list, map and work, which no cut can do without.\n".to_string(),
        "All cut the same lists into buffers that are warm, with work clear from the call before; the baseline makes its own vectors. They take turns; a time is processor time of the one thread that runs, that of the quickest of 31 to 200 turns (until the quickest stays what it is). Each result was compared with the second program's before it was timed.\n".to_string(),
        format!(
            "The turn in the middle took {:.2} times as long as the quickest (geometric mean over all), which says how busy the machine was.\n",
            results.spread()
        ),
        "![ns per corner against the number of entries, and by family at 65,536 entries](benchmark.svg)\n".to_string(),
        "## Figures to reach\n".to_string(),
        figures(results),
        "Ratios are geometric means over all families below; the last three families are the lists made to collide.\n".to_string(),
        "## ns per corner at 65,536 entries\n".to_string(),
        at_limit(results),
        "## ns per corner of the product by size\n".to_string(),
        by_size(results, product, |size| results.mean_ns(Who::Product, size), 1),
        format!("Growth from 1k to 65k: {growth:.2} times.\n"),
        "## Times faster than the HashMap baseline\n".to_string(),
        by_size(results, to_baseline, |size| results.mean_ratio(Who::Baseline, Who::Product, size), 1),
        "## Times the same algorithm in Rust\n".to_string(),
        by_size(results, to_rust, |size| results.mean_ratio(Who::Product, Who::Unchecked, size), 2),
        "## Each call at 65,536 entries\n".to_string(),
        "The longest time over all families and a 65,536-gon that repeats an index at its end, and the deepest stack, measured by painting it (the frames of the Rust functions that call, some hundred bytes, are within it). The program reads at most 1,024 entries, the library 65,536. Reading and writing is of the list's text; the edge question asks for the edge between 0 and 1; showing a face asks for one behind the last.\n".to_string(),
        limits(results),
        notes.to_string(),
    ]
    .join("\n")
}
