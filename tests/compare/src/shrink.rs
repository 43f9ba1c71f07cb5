//! Makes a case that fails smaller, as long as it fails.

use crate::case::{Call, Case};
use std::time::{Duration, Instant};

/// The longest that one failure is worked on.
const TIME: Duration = Duration::from_secs(10);

/// Lists and texts up to this length are simplified element by element too.
const SHORT: usize = 300;

struct Shrinker {
    smallest: Case,
    until: Instant,
}

/// The smallest case found that fails like the given one.
pub fn shrink(case: &Case) -> Case {
    let mut shrinker = Shrinker {
        smallest: case.clone(),
        until: Instant::now() + TIME,
    };
    while shrinker.round() {}
    shrinker.smallest
}

impl Shrinker {
    /// Whether the time is over; then no candidate is made any more.
    fn is_late(&self) -> bool {
        self.until < Instant::now()
    }

    /// Keeps a candidate that still fails.
    fn keep(&mut self, candidate: Case) -> bool {
        if self.is_late() || candidate.verdict().differences.is_empty() {
            return false;
        }
        self.smallest = candidate;
        true
    }

    /// One round over all ways to make the case smaller; says whether one helped.
    fn round(&mut self) -> bool {
        let mut helped = self.remove_from(|case| &mut case.list);
        helped |= self.remove_from(|case| &mut case.text);
        helped |= self.lower_numbers();
        helped |= self.simplify(
            |case| &mut case.list,
            |&entry| vec![0, entry / 2, entry.wrapping_sub(1)],
            0,
        );
        helped | self.simplify(|case| &mut case.text, |_| vec![b' ', b'0'], b' ')
    }

    /// Takes pieces away, large ones first.
    fn remove_from<T: Clone>(&mut self, part: fn(&mut Case) -> &mut Vec<T>) -> bool {
        let mut helped = false;
        let mut piece = part(&mut self.smallest).len().div_ceil(2);
        while 0 < piece {
            let mut start = 0;
            while start < part(&mut self.smallest).len() && !self.is_late() {
                let mut candidate = self.smallest.clone();
                let sequence = part(&mut candidate);
                let end = sequence.len().min(start + piece);
                sequence.drain(start..end);
                if self.keep(candidate) {
                    helped = true;
                } else {
                    start += piece;
                }
            }
            piece /= 2;
        }
        helped
    }

    /// Lowers the vertex count, the indices and the lengths.
    fn lower_numbers(&mut self) -> bool {
        let mut helped = false;
        for i in 0..self.smallest.numbers.len() {
            loop {
                let number = self.smallest.numbers[i];
                let smaller = [0, number / 2, number.wrapping_sub(1)];
                let lowered = smaller
                    .into_iter()
                    .filter(|&other| other < number)
                    .any(|other| {
                        let mut candidate = self.smallest.clone();
                        candidate.numbers[i] = other;
                        self.keep(candidate)
                    });
                if !lowered {
                    break;
                }
                helped = true;
            }
        }
        helped
    }

    /// Replaces elements by plainer ones; `plainest` is left as it is.
    fn simplify<T: Clone + PartialEq>(
        &mut self,
        part: fn(&mut Case) -> &mut Vec<T>,
        plainer: impl Fn(&T) -> Vec<T>,
        plainest: T,
    ) -> bool {
        let mut helped = false;
        let length = part(&mut self.smallest).len();
        for i in 0..if length <= SHORT { length } else { 0 } {
            let element = part(&mut self.smallest)[i].clone();
            if element == plainest {
                continue;
            }
            for other in plainer(&element) {
                let mut candidate = self.smallest.clone();
                part(&mut candidate)[i] = other.clone();
                if other != element
                    && is_plainer(&candidate, &self.smallest)
                    && self.keep(candidate)
                {
                    helped = true;
                    break;
                }
            }
        }
        helped
    }
}

/// Whether a candidate comes before a case: by the size of its entries, or by its bytes.
fn is_plainer(candidate: &Case, case: &Case) -> bool {
    let size = |case: &Case| {
        case.list
            .iter()
            .map(|&entry| i64::from(entry).abs())
            .sum::<i64>()
    };
    let digits = |case: &Case| case.text.iter().filter(|&&byte| byte != b' ').count();
    let rest = |case: &Case| {
        case.text
            .iter()
            .filter(|&&byte| !b" 0".contains(&byte))
            .count()
    };
    match case.call {
        Call::Read | Call::Program => {
            (digits(candidate), rest(candidate)) < (digits(case), rest(case))
        }
        _ => size(candidate) < size(case),
    }
}
