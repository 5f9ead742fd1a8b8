//! What the Rust does where document 01 refuses, check by check. docs/DIFFERENCES.md has the table in words.

use crate::checks::Check::{self, *};
use supplied::call::{Kind, Said};

#[derive(Clone, Copy, PartialEq, Eq, PartialOrd, Ord, Debug)]
pub enum Does {
    /// It returns an error.
    Errs,
    /// It panics, by an assert or by an overflow check.
    Panics,
    /// It has no such check and answers.
    Answers,
}

use Does::*;

/// `None`: lent numbers were left over, which no class covers.
pub fn done(said: &Said) -> Option<Does> {
    match said {
        Said::Refused(_) => Some(Errs),
        Said::Words(_) => Some(Answers),
        Said::Panicked => Some(Panics),
        Said::LeftOver | Said::Spoiled(_) => None,
    }
}

/// To a raw view of a key the key's length is the dimension: a wrong key and a wrong ciphertext may fit each other.
pub fn fit_each_other(kind: Kind, checks: &[Check]) -> bool {
    use Kind::*;
    let other = match kind {
        Phase | PhaseSigned | MessageSigned => InputLength,
        EncryptEncoded | EncryptEncodedSigned | EncryptMessageSigned => OutputLength,
        _ => return false,
    };
    checks.contains(&SecretLength) && checks.contains(&other)
}

/// What the Rust may do with a call of this kind to which the check applies; `None` where it cannot be asked.
pub fn allowed(kind: Kind, check: Check) -> Option<&'static [Does]> {
    Some(match check {
        BaseLogBelow2 | BaseLogAbove31 | ModulusBelowBase | LevelsAboveFull => &[Errs],
        PlaintextModulusBelow2 | ModulusAtMostT => &[Errs],
        // A basis needs q ≥ B ≥ 4, and a codec q > t, which is check 8; nothing else looks at q.
        ModulusBelow4 if kind.has_basis() => &[Errs],
        ModulusBelow4 => &[Answers],
        // Its own limit is usize::MAX − 1.
        DimensionAbove2048 => &[Answers, Errs],
        DimensionZero => dimension_zero(kind),
        SecretLength => return secret_length(kind),
        OutputKeyLength => &[Panics],
        InputLength => &[Panics],
        // It takes any number of bodies, and panics where the index is above n.
        PackedCount if kind == Kind::Extract => &[Answers, Panics],
        PackedCount => &[Panics],
        // The body past the last is out of bounds.
        BodyIndex => &[Panics],
        OutputLength => output_length(kind),
        // It has no E.
        BoundAboveLimit | BoundNotBelowQ | ErrorOutside => &[Answers],
        // Its contract asks for canonical words and checks none; digits overflow.
        SecretWord | SecretNumber | OutputKeyWord | MaskWord => &[Answers],
        // Its sampler hands out words below q; the shim reduces what it is lent.
        ErrorWord => &[Answers],
        InputWord => input_word(kind),
        MessageNotBelowT => &[Panics],
        // It has neither tally nor c.
        TagCount | TallyAboveCap | SummedAboveCap => &[Answers],
        // Keys come from `generate` alone, and a generator hands out what is asked for.
        KeyLength | KeyWord | MaskLength | ErrorLength | CoefficientLength | CoefficientOutside => {
            return None;
        }
    })
}

/// A typed error where a dimension is made; `generate` panics; raw views take an empty key.
fn dimension_zero(kind: Kind) -> &'static [Does] {
    use Kind::*;
    match kind {
        EncryptMessage | EncryptMessageBatch | PackEncoded | PackMessage | Message
        | MessageBatch | MessagePacked | PublicKey | PublicKeySigned | PublicEncoded
        | PublicMessage | Switch | SwitchBatch => &[Errs],
        Generate | GenerateSigned => &[Errs, Panics],
        // An index of 1 rotates nothing.
        Extract => &[Answers, Panics],
        _ => &[Answers],
    }
}

/// A key of another length is a key of another dimension to `generate`: masks and errors would not fit.
fn secret_length(kind: Kind) -> Option<&'static [Does]> {
    use Kind::*;
    match kind {
        Generate | GenerateSigned => None,
        // With no ciphertext nothing is multiplied.
        PhaseBatch => Some(&[Panics, Answers]),
        // The key's length is the dimension: 10 may apply to it or not.
        PhasePacked => Some(&[Panics, Answers]),
        _ => Some(&[Panics]),
    }
}

/// Calls that allocate have no output to judge.
fn output_length(kind: Kind) -> &'static [Does] {
    use Kind::*;
    match kind {
        Basis | Reading | DigitsSingle | PackEncoded | PackMessage | PhaseBatch | PhasePacked
        | MessagePacked | PublicKey | PublicKeySigned | Extract | Generate | GenerateSigned => {
            &[Answers]
        }
        // One level at a time: a run of another length panics in debug builds.
        Digits => &[Panics, Answers],
        _ => &[Panics],
    }
}

fn input_word(kind: Kind) -> &'static [Does] {
    use Kind::*;
    match kind {
        Reading | DigitsSingle | Digits | Switch | SwitchBatch => &[Panics, Answers],
        _ => &[Answers],
    }
}
