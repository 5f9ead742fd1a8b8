//! Counts, the first difference, and the smallest input of each refusal.

use std::collections::BTreeMap;

use crate::checks::Check;
use crate::classes::Does;
use crate::compare::Outcome;
use supplied::call::{Call, Kind};

#[derive(Default, Clone, Copy)]
struct Counts {
    native: u64,
    explicit: u64,
    refused: u64,
    words: u64,
}

/// How often the Rust did this, and the smallest call.
struct Seen {
    count: u64,
    size: u128,
    call: String,
}

#[derive(Default)]
pub struct Report {
    counts: BTreeMap<Kind, Counts>,
    /// Calls to which one check alone applies, by it and by what the Rust did.
    refusals: BTreeMap<(Check, Option<Does>), Seen>,
    /// Refused calls that the Rust was asked, too.
    asked: u64,
    /// Calls of the library that took the errors as words.
    error_words: u64,
    pub different: u64,
}

impl Report {
    pub fn add(&mut self, call: &Call, outcome: Outcome) {
        let counts = self.counts.entry(call.kind).or_default();
        self.error_words += call.error_words as u64;
        match outcome {
            Outcome::Same(words) => {
                counts.words += words as u64;
                match call.modulus {
                    0 => counts.native += 1,
                    _ => counts.explicit += 1,
                }
            }
            Outcome::Refused(checks, does) => {
                counts.refused += 1;
                self.asked += does.is_some() as u64;
                if let [check] = checks[..] {
                    self.see(check, does, call);
                }
            }
            Outcome::Differs(how) => self.differs(call, &how),
        }
    }

    fn see(&mut self, check: Check, does: Option<Does>, call: &Call) {
        let seen = self.refusals.entry((check, does)).or_insert(Seen {
            count: 0,
            size: u128::MAX,
            call: String::new(),
        });
        seen.count += 1;
        let size = call.size();
        if size < seen.size {
            (seen.size, seen.call) = (size, call.to_string());
        }
    }

    fn differs(&mut self, call: &Call, how: &str) {
        self.different += 1;
        if self.different <= 5 {
            println!("differs: {call}\n  {how}");
        }
    }

    pub fn calls(&self) -> u64 {
        let all = self.counts.values();
        all.map(|c| c.native + c.explicit + c.refused).sum::<u64>() + self.different
    }

    pub fn print(&self, title: &str) {
        println!("{title}:");
        println!(
            "{:>10} {:>10} {:>10} {:>12}",
            "native", "explicit", "refused", "words"
        );
        let mut total = Counts::default();
        for (kind, c) in &self.counts {
            line(*c, &format!("{kind:?}"));
            total.native += c.native;
            total.explicit += c.explicit;
            total.refused += c.refused;
            total.words += c.words;
        }
        line(total, "in all");
        println!("errors were words in {} of these calls", self.error_words);
    }

    /// What the Rust did where 01 refuses for one reason alone.
    pub fn print_refusals(&self) {
        println!(
            "the Rust was asked {} of the refused calls, too; where one check alone applies, with the smallest call:",
            self.asked
        );
        for ((check, does), seen) in &self.refusals {
            let does = match does {
                Some(does) => format!("{does:?}"),
                None => "not asked".to_string(),
            };
            println!(
                "{:2} {check:?}: {does} {}\n     {}",
                check.number(),
                seen.count,
                seen.call
            );
        }
    }
}

fn line(c: Counts, name: &str) {
    println!(
        "{:>10} {:>10} {:>10} {:>12} {name}",
        c.native, c.explicit, c.refused, c.words
    );
}
