//! The benchmark: the product's cut beside its rivals on all families, in one run.
//!
//! `bench [FOLDER]` writes BENCHMARK.md and benchmark.svg there; without a folder, in the
//! repository's `docs`. What stands in BENCHMARK.md from the line "## Notes" on is kept.

mod clock;
mod limits;
mod measure;
mod plot;
mod report;
mod results;
mod stack;

use lists::meshes::{Family, Mesh, FAMILIES};
use measure::{corners_of, times, Who};
use results::{Results, Row, SIZES};
use std::fs;
use std::path::{Path, PathBuf};

/// All but the touch answer like the second program; otherwise a time would mean nothing.
fn compare(name: &str, mesh: &Mesh) {
    let corners = corners_of(mesh);
    let cut = |call: Call| {
        let mut buffers = (
            vec![7; mesh.list.len()],
            vec![7; corners],
            vec![7; 4 * corners],
        );
        let answer = call(
            &mesh.list,
            mesh.n,
            &mut buffers.0,
            &mut buffers.1,
            &mut buffers.2,
        );
        (answer, buffers)
    };
    let expected = cut(second::cut);
    assert!(cut(product::cut) == expected, "{name}: the product differs");
    assert!(
        cut(rivals::unchecked::cut) == expected,
        "{name}: the unchecked cut differs"
    );
    let baseline = rivals::baseline::cut(&mesh.list, mesh.n as usize);
    let baseline =
        baseline.unwrap_or_else(|refusal| panic!("{name}: the baseline gives {refusal:?}"));
    assert!(
        baseline.new_list == expected.1 .0,
        "{name}: the baseline differs"
    );
}

type Call = fn(&[i32], u64, &mut [i32], &mut [i32], &mut [u32]) -> [u64; 7];

/// One family at one size.
fn row(family: &Family, size: usize) -> Row {
    let mesh = (family.make)(size);
    compare(family.name, &mesh);
    let row = Row {
        corners: corners_of(&mesh),
        times: times(&mesh),
    };
    let cells = Who::ALL.map(|who| format!("{}: {:.1}", who.name(), row.ns(who)));
    println!(
        "{}, {size} entries: {} ns per corner",
        family.name,
        cells.join(", ")
    );
    row
}

/// The load average of the last minute.
fn load() -> String {
    let text = fs::read_to_string("/proc/loadavg").unwrap_or_default();
    text.split(' ').next().unwrap_or("unknown").to_string()
}

fn docs() -> PathBuf {
    let tests = Path::new(env!("CARGO_MANIFEST_DIR")).join("..");
    let given = std::env::args().nth(1).map(PathBuf::from);
    given.unwrap_or(tests.join("..").join("docs"))
}

/// The notes of the page as it is.
fn notes(page: &Path) -> String {
    let text = fs::read_to_string(page).unwrap_or_default();
    text.find(report::NOTES)
        .map_or(String::new(), |at| text[at..].to_string())
}

fn main() -> std::io::Result<()> {
    let load_before = load();
    let rows = FAMILIES
        .iter()
        .map(|family| SIZES.map(|size| row(family, size)));
    let results = Results {
        rows: rows.collect(),
        most: limits::most(),
    };
    for figure in results.figures() {
        let verdict = if figure.reached { "reached" } else { "MISSED" };
        println!(
            "{}: {} ({}): {verdict}",
            figure.what, figure.measured, figure.asked
        );
    }
    let load = format!("{load_before} before, {} after", load());
    let docs = docs();
    fs::create_dir_all(&docs)?;
    let page = docs.join("BENCHMARK.md");
    fs::write(&page, report::page(&results, &load, &notes(&page)))?;
    fs::write(docs.join("benchmark.svg"), plot::plot(&results))
}
