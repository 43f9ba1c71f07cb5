//! All that one run measures, and the figures drawn from it.

use crate::limits::Most;
use crate::measure::{Time, Who, WHO};
use lists::meshes::{Kind, FAMILIES};

/// The entries asked of each family.
pub const SIZES: [usize; 4] = [100, 1_000, 10_000, 65_536];

/// How the sizes are called.
pub const SIZE_NAMES: [&str; 4] = ["100", "1k", "10k", "65k"];

/// The times of one family at one size.
#[derive(Clone, Copy)]
pub struct Row {
    pub corners: usize,
    /// In the order of `Who::ALL`.
    pub times: [Time; WHO],
}

impl Row {
    /// Nanoseconds per corner.
    pub fn ns(&self, who: Who) -> f64 {
        self.times[who as usize].least / self.corners as f64
    }

    /// How many times longer one takes than the other.
    pub fn ratio(&self, one: Who, other: Who) -> f64 {
        self.ns(one) / self.ns(other)
    }
}

/// All that one run measures.
pub struct Results {
    /// For each family, in the order of `FAMILIES`, a row for each size.
    pub rows: Vec<[Row; 4]>,
    pub most: Vec<Most>,
}

/// The geometric mean of some numbers.
pub fn mean(numbers: impl Iterator<Item = f64>) -> f64 {
    let logs: Vec<f64> = numbers.map(f64::ln).collect();
    (logs.iter().sum::<f64>() / logs.len() as f64).exp()
}

/// One figure to reach.
pub struct Figure {
    pub what: String,
    pub asked: String,
    pub measured: String,
    pub reached: bool,
}

impl Results {
    pub fn mean_ns(&self, who: Who, size: usize) -> f64 {
        mean(self.rows.iter().map(|rows| rows[size].ns(who)))
    }

    pub fn mean_ratio(&self, one: Who, other: Who, size: usize) -> f64 {
        mean(self.rows.iter().map(|rows| rows[size].ratio(one, other)))
    }

    /// The geometric mean of the product over the families of one kind.
    fn mean_of_kind(&self, kind: Kind, size: usize) -> f64 {
        let all = FAMILIES.iter().zip(&self.rows);
        let of_kind = all.filter(|(family, _)| family.kind == kind);
        mean(of_kind.map(|(_, rows)| rows[size].ns(Who::Product)))
    }

    /// How much the turn in the middle takes above the quickest, as a geometric mean.
    pub fn spread(&self) -> f64 {
        let times = self.rows.iter().flatten().flat_map(|row| row.times);
        mean(times.map(|time| time.middle / time.least))
    }

    /// The figures to reach, each with what was measured.
    pub fn figures(&self) -> Vec<Figure> {
        let mut figures = Vec::new();
        for size in 1..SIZES.len() {
            figures.push(self.faster_than_baseline(size));
        }
        figures.push(self.never_slower());
        figures.extend((1..SIZES.len()).map(|size| self.near_rust(size)));
        figures.extend([self.growth(), self.collisions(), self.longest()]);
        figures
    }

    fn faster_than_baseline(&self, size: usize) -> Figure {
        let ratio = self.mean_ratio(Who::Baseline, Who::Product, size);
        Figure {
            what: format!(
                "times faster than the HashMap baseline at {}",
                SIZE_NAMES[size]
            ),
            asked: "at least 6".to_string(),
            measured: format!("{ratio:.1}"),
            reached: 6.0 <= ratio,
        }
    }

    fn never_slower(&self) -> Figure {
        let mut slowest = (f64::MAX, String::new());
        for (family, rows) in FAMILIES.iter().zip(&self.rows) {
            for (row, size) in rows.iter().zip(SIZE_NAMES) {
                let ratio = row.ratio(Who::Baseline, Who::Product);
                if ratio < slowest.0 {
                    slowest = (ratio, format!("{}, {size}", family.name));
                }
            }
        }
        Figure {
            what: "times faster than the baseline on the family where it is least".to_string(),
            asked: "at least 1".to_string(),
            measured: format!("{:.1} ({})", slowest.0, slowest.1),
            reached: 1.0 <= slowest.0,
        }
    }

    fn near_rust(&self, size: usize) -> Figure {
        let ratio = self.mean_ratio(Who::Product, Who::Unchecked, size);
        Figure {
            what: format!("times the same algorithm in Rust at {}", SIZE_NAMES[size]),
            asked: "at most 1.2".to_string(),
            measured: format!("{ratio:.2}"),
            reached: ratio <= 1.2,
        }
    }

    fn growth(&self) -> Figure {
        let growth = self.mean_ns(Who::Product, 3) / self.mean_ns(Who::Product, 1);
        Figure {
            what: "ns per corner at 65k, times that at 1k".to_string(),
            asked: "at most 2".to_string(),
            measured: format!("{growth:.2}"),
            reached: growth <= 2.0,
        }
    }

    fn collisions(&self) -> Figure {
        let ratio = self.mean_of_kind(Kind::Collide, 3) / self.mean_of_kind(Kind::Ordinary, 3);
        Figure {
            what: "lists made to collide, times the ordinary ones, at 65k".to_string(),
            asked: "at most 1.5".to_string(),
            measured: format!("{ratio:.2}"),
            reached: ratio <= 1.5,
        }
    }

    fn longest(&self) -> Figure {
        let cut = self.most.iter().find(|most| most.call == "cut");
        let (family, milliseconds) = &cut.expect("the cut is measured").slowest;
        Figure {
            what: "ms for the cut of any list of 65,536 entries".to_string(),
            asked: "under 5".to_string(),
            measured: format!("{milliseconds:.2} ({family})"),
            reached: *milliseconds < 5.0,
        }
    }
}
