//! The results as a plot: on the left ns per corner against entries, on the right by family.

use crate::measure::Who;
use crate::results::{Results, SIZES};
use lists::meshes::FAMILIES;

const WIDTH: f64 = 1_080.0;
const HEIGHT: f64 = 560.0;
const TOP: f64 = 84.0;
const BOTTOM: f64 = 486.0;

/// The left panel's edges.
const LEFT: (f64, f64) = (70.0, 430.0);

/// The right panel's edges; the names of the families stand before it.
const RIGHT: (f64, f64) = (650.0, 1_050.0);

const STYLE: &str = "text{font:13px sans-serif;fill:#222}.title{font-size:15px;font-weight:bold}.grid{stroke:#ddd;stroke-width:1}.frame{fill:none;stroke:#888;stroke-width:1}";

fn colour(who: Who) -> &'static str {
    match who {
        Who::Product => "#0b6e4f",
        Who::Unchecked => "#e08e0b",
        Who::Baseline => "#8a2be2",
        Who::Touch => "#888888",
    }
}

/// A range of numbers shown on a logarithmic scale between two places.
#[derive(Clone, Copy)]
struct Scale {
    numbers: (f64, f64),
    places: (f64, f64),
}

impl Scale {
    fn place(&self, number: f64) -> f64 {
        let part = (number / self.numbers.0).ln() / (self.numbers.1 / self.numbers.0).ln();
        self.places.0 + part * (self.places.1 - self.places.0)
    }

    /// 1, 2, 5, 10, .. as far as they are shown.
    fn ticks(&self) -> Vec<f64> {
        let decades = (-2..7).map(|power| 10f64.powi(power));
        let all = decades.flat_map(|ten| [ten, 2.0 * ten, 5.0 * ten]);
        let (least, most) = self.numbers;
        all.filter(|tick| (least * 0.999..most * 1.001).contains(tick))
            .collect()
    }
}

/// The range of some times, with some air.
fn range(times: impl Iterator<Item = f64>) -> (f64, f64) {
    let (least, most) = times.fold((f64::MAX, 0f64), |(least, most), ns| {
        (least.min(ns), most.max(ns))
    });
    (least * 0.8, most * 1.25)
}

fn text(x: f64, y: f64, anchor: &str, content: &str) -> String {
    format!("<text x=\"{x:.1}\" y=\"{y:.1}\" text-anchor=\"{anchor}\">{content}</text>\n")
}

fn title(x: f64, y: f64, content: &str) -> String {
    format!("<text class=\"title\" x=\"{x:.1}\" y=\"{y:.1}\">{content}</text>\n")
}

fn grid_line(x1: f64, y1: f64, x2: f64, y2: f64) -> String {
    format!("<line class=\"grid\" x1=\"{x1:.1}\" y1=\"{y1:.1}\" x2=\"{x2:.1}\" y2=\"{y2:.1}\"/>\n")
}

fn frame(sides: (f64, f64)) -> String {
    format!(
        "<rect class=\"frame\" x=\"{}\" y=\"{TOP}\" width=\"{}\" height=\"{}\"/>\n",
        sides.0,
        sides.1 - sides.0,
        BOTTOM - TOP
    )
}

/// A point of one who cuts; each has a shape of its own beside its colour.
fn point(who: Who, x: f64, y: f64) -> String {
    let fill = colour(who);
    let shape = match who {
        Who::Product => format!("<circle cx=\"{x:.1}\" cy=\"{y:.1}\" r=\"5\""),
        Who::Unchecked => format!(
            "<path d=\"M{:.1} {y:.1}L{x:.1} {:.1}L{:.1} {y:.1}L{x:.1} {:.1}Z\"",
            x - 5.0,
            y - 5.0,
            x + 5.0,
            y + 5.0
        ),
        Who::Baseline => format!(
            "<rect x=\"{:.1}\" y=\"{:.1}\" width=\"9\" height=\"9\"",
            x - 4.5,
            y - 4.5
        ),
        Who::Touch => format!(
            "<path d=\"M{:.1} {:.1}L{:.1} {:.1}L{x:.1} {:.1}Z\"",
            x - 5.0,
            y + 4.0,
            x + 5.0,
            y + 4.0,
            y - 5.0
        ),
    };
    format!("{shape} fill=\"{fill}\" fill-opacity=\"0.85\"/>\n")
}

/// Who is who.
fn legend() -> String {
    let mut drawn = String::new();
    let mut x = LEFT.0 + 6.0;
    for who in Who::ALL {
        drawn += &point(who, x, 22.0);
        drawn += &text(x + 12.0, 26.5, "start", who.name());
        x += 60.0 + 7.6 * who.name().len() as f64;
    }
    drawn
}

/// Geometric means against the number of entries.
fn by_size(results: &Results) -> String {
    let means = (0..SIZES.len()).flat_map(|size| Who::ALL.map(|who| results.mean_ns(who, size)));
    let across = Scale {
        numbers: (80.0, 82_000.0),
        places: LEFT,
    };
    let up = Scale {
        numbers: range(means),
        places: (BOTTOM, TOP),
    };
    let mut drawn = title(LEFT.0, TOP - 20.0, "Geometric mean over all families");
    for tick in up.ticks() {
        drawn += &grid_line(LEFT.0, up.place(tick), LEFT.1, up.place(tick));
        drawn += &text(LEFT.0 - 6.0, up.place(tick) + 4.5, "end", &tick.to_string());
    }
    for size in SIZES {
        let x = across.place(size as f64);
        drawn += &grid_line(x, TOP, x, BOTTOM);
        drawn += &text(x, BOTTOM + 18.0, "middle", &size.to_string());
    }
    for &who in Who::ALL.iter().rev() {
        let place = |(i, &size): (usize, &usize)| {
            (across.place(size as f64), up.place(results.mean_ns(who, i)))
        };
        let places: Vec<(f64, f64)> = SIZES.iter().enumerate().map(place).collect();
        let line: Vec<String> = places
            .iter()
            .map(|(x, y)| format!("{x:.1},{y:.1}"))
            .collect();
        drawn += &format!(
            "<polyline points=\"{}\" fill=\"none\" stroke=\"{}\" stroke-width=\"2\"/>\n",
            line.join(" "),
            colour(who)
        );
        drawn += &places
            .iter()
            .map(|&(x, y)| point(who, x, y))
            .collect::<String>();
    }
    drawn += &frame(LEFT);
    drawn += &text(
        (LEFT.0 + LEFT.1) / 2.0,
        BOTTOM + 42.0,
        "middle",
        "entries in the list (logarithmic)",
    );
    let middle = (TOP + BOTTOM) / 2.0;
    drawn + &format!("<text transform=\"translate(20 {middle}) rotate(-90)\" text-anchor=\"middle\">ns per corner (logarithmic)</text>\n")
}

/// Each family at the largest size.
fn by_family(results: &Results) -> String {
    let last = results.rows.iter().map(|rows| rows[SIZES.len() - 1]);
    let across = Scale {
        numbers: range(last.flat_map(|row| Who::ALL.map(|who| row.ns(who)))),
        places: RIGHT,
    };
    let mut drawn = title(RIGHT.0, TOP - 20.0, "By family at 65,536 entries");
    for tick in across.ticks() {
        let x = across.place(tick);
        drawn += &grid_line(x, TOP, x, BOTTOM);
        drawn += &text(x, BOTTOM + 18.0, "middle", &tick.to_string());
    }
    let step = (BOTTOM - TOP) / FAMILIES.len() as f64;
    for (i, (family, rows)) in FAMILIES.iter().zip(&results.rows).enumerate() {
        let y = TOP + (i as f64 + 0.5) * step;
        drawn += &text(RIGHT.0 - 8.0, y + 4.5, "end", family.name);
        drawn += &grid_line(RIGHT.0, y, RIGHT.1, y);
        let row = rows[SIZES.len() - 1];
        for &who in Who::ALL.iter().rev() {
            drawn += &point(who, across.place(row.ns(who)), y);
        }
    }
    drawn += &frame(RIGHT);
    drawn
        + &text(
            (RIGHT.0 + RIGHT.1) / 2.0,
            BOTTOM + 42.0,
            "middle",
            "ns per corner (logarithmic)",
        )
}

/// The whole plot.
pub fn plot(results: &Results) -> String {
    format!(
        "<svg xmlns=\"http://www.w3.org/2000/svg\" width=\"{WIDTH}\" height=\"{HEIGHT}\" viewBox=\"0 0 {WIDTH} {HEIGHT}\" role=\"img\" aria-label=\"Benchmark of the cut: ns per corner\">\n<style>{STYLE}</style>\n<rect width=\"{WIDTH}\" height=\"{HEIGHT}\" fill=\"#fff\"/>\n{}{}{}</svg>\n",
        legend(),
        by_size(results),
        by_family(results)
    )
}
