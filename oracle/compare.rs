//! One call on both sides.

use crate::checks::{self, Check};
use crate::classes::{self, Does};
use crate::proved;
use supplied::call::{Call, Said};
use supplied::rust;

pub enum Outcome {
    /// Both gave these words.
    Same(usize),
    /// The proved library gave 01's number; what the Rust did, where it could be asked.
    Refused(Vec<Check>, Option<Does>),
    Differs(String),
}

/// The numbers that an error of the Rust may stand for: `BasisExceedsModulus` is 3 and 2.
fn stands_for(error: u32, checks: &[Check]) -> bool {
    let low = error == 3 && checks.contains(&Check::ModulusBelow4);
    low || checks.iter().any(|check| check.number() == error)
}

fn allowed(call: &Call, checks: &[Check], said: &Said) -> bool {
    let may = |does| {
        let by = |check| classes::allowed(call.kind, check).is_some_and(|all| all.contains(&does));
        checks.iter().any(|&check| by(check))
    };
    match said {
        Said::Refused(error) if !stands_for(*error, checks) => false,
        Said::Words(_) | Said::LeftOver if classes::fit_each_other(call.kind, checks) => true,
        _ => classes::done(said).is_some_and(may),
    }
}

/// A call that 01 refuses by the first of these checks.
pub fn refusals(
    call: &Call,
    checks: Vec<Check>,
    proved: Said,
    rust: impl Fn(&Call) -> Said,
) -> Outcome {
    let number = checks[0].number();
    if proved != Said::Refused(number) {
        return Outcome::Differs(format!(
            "01 refuses by {number} ({checks:?}), the library: {proved:?}"
        ));
    }
    if checks
        .iter()
        .any(|&check| classes::allowed(call.kind, check).is_none())
    {
        return Outcome::Refused(checks, None);
    }
    let said = rust(call);
    if !allowed(call, &checks, &said) {
        return Outcome::Differs(format!("01 refuses ({checks:?}), the Rust: {said:?}"));
    }
    Outcome::Refused(checks, classes::done(&said))
}

/// A call that 01 accepts.
pub fn answers(proved: Said, rust: Said) -> Outcome {
    match (proved, rust) {
        (Said::Words(ours), Said::Words(theirs)) if ours == theirs => Outcome::Same(ours.len()),
        (ours, theirs) => {
            Outcome::Differs(format!("the library: {ours:?}\n  the Rust: {theirs:?}"))
        }
    }
}

/// The tags that the library told against the rule.
pub fn tags(
    call: &Call,
    told: &[(u64, u32)],
    rule: impl Fn(&Call) -> Vec<(u64, u32)>,
) -> Option<Outcome> {
    let refused = !checks::applying(call).is_empty();
    let expected = if refused {
        checks::tags_refused(call)
    } else {
        rule(call)
    };
    (told != expected).then(|| {
        Outcome::Differs(format!(
            "the tags should be {expected:?}, the library's are {told:?}"
        ))
    })
}

pub fn compare(call: &Call) -> Outcome {
    let proved = proved::told(call);
    if let Some(outcome) = tags(call, &proved.tags, checks::tags) {
        return outcome;
    }
    let checks = checks::applying(call);
    if checks.is_empty() {
        answers(proved.said, rust::said(call))
    } else {
        refusals(call, checks, proved.said, rust::said)
    }
}
