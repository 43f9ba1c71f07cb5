//! Tries cases, counts the codes met, and reports each failure at its smallest.

use crate::case::{Call, Case};
use crate::crash;
use crate::shrink::shrink;

/// The codes are 0 to 15.
const CODES: usize = 16;

/// After so many failures the run stops.
const MOST_FAILURES: usize = 5;

/// A failure is shown with at most so many characters of its list or text.
const SHOWN: usize = 2_000;

/// What has run so far.
#[derive(Default)]
pub struct Tally {
    met: [[u64; CODES]; Call::ALL.len()],
    lists: u64,
    /// Accepted cuts with a singular edge, and with singular vertices alone.
    singular: [u64; 2],
    failures: usize,
}

impl Tally {
    /// Notes that one more list is tried.
    pub fn count_list(&mut self) {
        self.lists += 1;
    }

    /// Tries one case. `origin` says where it comes from and how to repeat it.
    pub fn try_case(&mut self, case: &Case, origin: &str) {
        if self.is_over() {
            return;
        }
        let verdict = crash::during(origin, || case.verdict());
        self.met[case.call as usize][verdict.code] += 1;
        if case.call == Call::Cut {
            let (edges, vertices) = (verdict.answer[5], verdict.answer[6]);
            self.singular[0] += u64::from(0 < edges);
            self.singular[1] += u64::from(0 == edges && 0 < vertices);
        }
        if !verdict.differences.is_empty() {
            let smallest = crash::during(origin, || shrink(case));
            let differences = smallest.verdict().differences.join("; ");
            self.fail(&format!("{differences}: {smallest}"), origin);
        }
    }

    /// Notes a failure.
    pub fn fail(&mut self, what: &str, origin: &str) {
        self.failures += 1;
        let shown: String = what.chars().take(SHOWN).collect();
        let rest = what.chars().count() - shown.chars().count();
        println!("DIFFERENCE ({origin}): {shown}");
        if 0 < rest {
            println!("  and {rest} characters more");
        }
    }

    /// Whether so much has failed that going on shows nothing new.
    pub fn is_over(&self) -> bool {
        MOST_FAILURES <= self.failures
    }

    /// Notes a failure for each code that a call can give and that was not met.
    pub fn demand_all_codes(&mut self) {
        for call in Call::ALL {
            let met = self.met[call as usize];
            for &code in call.codes() {
                if met[code] == 0 {
                    let what = format!("code {code} of the call {} was never met", call.name());
                    self.fail(&what, "all cases");
                }
            }
        }
    }

    /// The last lines: how often each code was met, and how much ran.
    pub fn report(&self) -> bool {
        for call in Call::ALL {
            let met = self.met[call as usize].iter().enumerate();
            let shown = met.filter(|(_, &times)| 0 < times);
            let words: Vec<String> = shown
                .map(|(code, times)| format!("{code}: {times}"))
                .collect();
            println!("codes met by {}: {}", call.name(), words.join(", "));
        }
        let of_code = |code: usize| self.met.iter().map(|met| met[code]).sum::<u64>();
        let words: Vec<String> = (0..CODES)
            .map(|code| format!("{code}: {}", of_code(code)))
            .collect();
        println!("codes met by all calls: {}", words.join(", "));
        let [with_edges, isolated] = self.singular;
        println!("accepted cuts with singular edges: {with_edges}, with isolated singular vertices alone: {isolated}");
        let cases: u64 = (0..CODES).map(of_code).sum();
        println!(
            "{} lists, {cases} cases, {} differences",
            self.lists, self.failures
        );
        self.failures == 0
    }
}
