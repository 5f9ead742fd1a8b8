//! Faults planted in what the Rust is given, in what it says, or in what is expected: each has to be noticed.

use crate::compare::{Outcome, answers, refusals, tags};
use crate::damage::refused;
use crate::draw::{Draw, accepted};
use crate::{checks, proved};
use supplied::call::{Call, Kind, Said};
use supplied::rust;

/// Calls within which a fault has to be noticed.
const PATIENCE: u64 = 20_000;

enum Plant {
    /// In the call as the Rust gets it.
    Given(fn(&mut Call)),
    /// In the words that the Rust said.
    Said(fn(&mut Vec<u32>)),
}

struct Fault {
    name: &'static str,
    /// The kinds that it can show in.
    kinds: &'static [Kind],
    plant: Plant,
}

const fn given(name: &'static str, kinds: &'static [Kind], alter: fn(&mut Call)) -> Fault {
    let plant = Plant::Given(alter);
    Fault { name, kinds, plant }
}

const fn said(name: &'static str, kinds: &'static [Kind], alter: fn(&mut Vec<u32>)) -> Fault {
    let plant = Plant::Said(alter);
    Fault { name, kinds, plant }
}

use Kind::*;

/// The kinds that are lent errors.
const LENDING: &[Kind] = &[
    EncryptEncoded,
    EncryptMessageSigned,
    EncryptMessageBatch,
    PackEncoded,
    PublicKey,
    PublicMessage,
    GenerateSigned,
];

#[rustfmt::skip]
const FAULTS: [Fault; 14] = [
    said("the lowest bit of the last word", Kind::ALL, flip),
    said("a word missing", Kind::ALL, |words| words.truncate(words.len().saturating_sub(1))),
    said("the words of a ciphertext turned round", &[EncryptEncoded, SwitchBatch], |words| words.reverse()),
    said("a digit one higher", &[Digits], |words| if let Some(word) = words.first_mut() { *word = word.wrapping_add(1) }),
    given("one level fewer", &[Digits, Generate], |call| call.levels = call.level_count().saturating_sub(1).max(1) as u32),
    given("masks in another order", &[Generate, PackEncoded], |call| call.masks.reverse()),
    given("errors in another order", &[PublicEncoded, Generate], |call| call.errors.reverse()),
    given("an error word one higher", LENDING, |call| if let (true, Some(e)) = (call.error_words, call.errors.first_mut()) { *e = e.wrapping_add(1) }),
    given("an error word read as a number of the same bits", LENDING, |call| call.error_words = false),
    given("a mask word and an error exchanged", &[EncryptEncoded, PublicKey], exchange),
    given("the other embedding", &[Encode, EncryptMessage], |call| call.centered = (call.centered == 0) as u32),
    given("coefficients of the other sign", &[PublicEncoded, PublicMessage], |call| call.coefficients.iter_mut().for_each(|c| *c = -*c)),
    given("the sample of another body", &[Extract], |call| call.index = call.index.saturating_sub(1)),
    given("the last body of a batch taken as 0", &[SwitchBatch], |call| if let Some(word) = call.input.last_mut() { *word = 0 }),
];

fn flip(words: &mut Vec<u32>) {
    if let Some(word) = words.last_mut() {
        *word ^= 1;
    }
}

/// One mask word and one error, where the error is a word.
fn exchange(call: &mut Call) {
    let (mask, error) = (call.masks[0], call.errors[0]);
    if error >= 0 && mask <= i32::MAX as u32 {
        (call.masks[0], call.errors[0]) = (error as u32, mask as i32);
    }
}

fn planted(fault: &Fault, call: &Call) -> Said {
    let mut call = call.clone();
    if let Plant::Given(alter) = fault.plant {
        alter(&mut call);
    }
    match (rust::said(&call), &fault.plant) {
        (Said::Words(mut words), Plant::Said(alter)) => {
            alter(&mut words);
            Said::Words(words)
        }
        (said, _) => said,
    }
}

/// After how many calls the comparison differs.
fn noticed(seed: u64, mut differs: impl FnMut(&mut Draw) -> bool) -> Option<u64> {
    let mut draw = Draw(seed);
    (1..=PATIENCE).find(|_| differs(&mut draw))
}

fn answer_differs(fault: &Fault, draw: &mut Draw) -> bool {
    let kind = draw.choose(fault.kinds);
    let call = accepted(draw, kind);
    matches!(
        answers(proved::told(&call).said, planted(fault, &call)),
        Outcome::Differs(_)
    )
}

/// The last of the checks that apply taken for the first: 01's order upset.
fn order_differs(draw: &mut Draw) -> bool {
    let kind = draw.choose(Kind::ALL);
    let call = refused(draw, kind);
    let mut checks = checks::applying(&call);
    checks.reverse();
    matches!(
        refusals(&call, checks, proved::told(&call).said, rust::said),
        Outcome::Differs(_)
    )
}

/// A Rust that accepts what it refuses.
fn acceptance_differs(draw: &mut Draw) -> bool {
    let kind = draw.choose(Kind::ALL);
    let call = refused(draw, kind);
    let checks = checks::applying(&call);
    let accepting = |_: &Call| Said::Words(vec![]);
    matches!(
        refusals(&call, checks, proved::told(&call).said, accepting),
        Outcome::Differs(_)
    )
}

/// A rule of tags other than the documents'.
struct Rule {
    name: &'static str,
    /// The kinds that it can show in, each of them.
    kinds: &'static [Kind],
    tags: fn(&Call) -> Vec<(u64, u32)>,
}

const fn rule(
    name: &'static str,
    kinds: &'static [Kind],
    tags: fn(&Call) -> Vec<(u64, u32)>,
) -> Rule {
    Rule { name, kinds, tags }
}

const FRESH: &[Kind] = &[
    EncryptEncoded,
    EncryptEncodedSigned,
    EncryptMessage,
    EncryptMessageSigned,
    EncryptMessageBatch,
];
const KEEPING: &[Kind] = &[Extract, Switch, SwitchBatch];
const WRITING: &[Kind] = &[
    EncryptMessageBatch,
    PackEncoded,
    PackMessage,
    PublicEncoded,
    PublicMessage,
];

#[rustfmt::skip]
const RULES: [Rule; 8] = [
    rule("a tally of |e|", FRESH, |call| vec![(tally_of_the_error(call), 1)]),
    rule("a tally where there is none", &[PackMessage, PublicEncoded], |call| vec![(call.bound as u64, 1)]),
    rule("the tally is kept", KEEPING, |call| call.tags.clone()),
    rule("c is the number of messages", &[EncryptMessageBatch, PackMessage], |call| vec![(checks::tags(call)[0].0, call.input.len() as u32)]),
    rule("c is 0 when fresh", WRITING, |call| vec![(checks::tags(call)[0].0, 0)]),
    rule("c is forgotten", KEEPING, |call| call.tags.iter().map(|_| (checks::NO_TALLY, 1)).collect()),
    rule("c is one more", KEEPING, |call| call.tags.iter().map(|tag| (checks::NO_TALLY, tag.1 + 1)).collect()),
    rule("c of the row before", &[SwitchBatch], row_before),
];

fn rule_differs(rule: &Rule, kind: Kind, draw: &mut Draw) -> bool {
    let call = accepted(draw, kind);
    tags(&call, &proved::told(&call).tags, rule.tags).is_some()
}

/// |e|, which is not E.
fn tally_of_the_error(call: &Call) -> u64 {
    let errors = call.signed_errors().into_iter();
    errors.map(i64::unsigned_abs).max().unwrap_or(0)
}

fn row_before(call: &Call) -> Vec<(u64, u32)> {
    let mut tags = checks::tags(call);
    if !tags.is_empty() {
        tags.rotate_right(1);
    }
    tags
}

/// A refused batch whose tags are as if it had been served.
fn refused_tags_differ(draw: &mut Draw) -> bool {
    let call = refused(draw, SwitchBatch);
    let served = checks::tags(&call);
    proved::told(&call).tags != served
}

/// Words judged as they stand: 15 is of what they count as.
fn judgement_differs(draw: &mut Draw) -> bool {
    let kind = draw.choose(LENDING);
    let mut call = accepted(draw, kind);
    call.error_words = true;
    let far = |e: &i64| *e > call.bound as i64;
    let expected = call.lent_errors().iter().any(far);
    let checks = checks::applying(&call);
    let said = proved::told(&call).said;
    checks.is_empty() && expected != (said == Said::Refused(15))
}

fn say(name: &str, after: Option<u64>) -> bool {
    match after {
        Some(calls) => println!("noticed after {calls} calls: {name}"),
        None => println!("NOT NOTICED within {PATIENCE} calls: {name}"),
    }
    after.is_some()
}

/// 0 where every fault is noticed.
pub fn all_noticed(seed: u64) -> i32 {
    let mut all = true;
    for fault in &FAULTS {
        all &= say(
            fault.name,
            noticed(seed, |draw| answer_differs(fault, draw)),
        );
    }
    all &= say("01's order of refusals upset", noticed(seed, order_differs));
    all &= say(
        "a Rust that accepts everything",
        noticed(seed, acceptance_differs),
    );
    all &= say("15 judged on the word", noticed(seed, judgement_differs));
    for rule in &RULES {
        for &kind in rule.kinds {
            let name = format!("{}, {kind:?}", rule.name);
            all &= say(&name, noticed(seed, |draw| rule_differs(rule, kind, draw)));
        }
    }
    all &= say(
        "the tags of a refused batch",
        noticed(seed, refused_tags_differ),
    );
    println!(
        "{}",
        if all {
            "all faults noticed"
        } else {
            "a fault was missed"
        }
    );
    !all as i32
}
