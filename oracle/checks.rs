//! Document 01's checks, operand by operand, written from its table, with those of c from request T-02: what applies to a call.

use supplied::call::{Call, Kind};

#[derive(Clone, Copy, PartialEq, Eq, PartialOrd, Ord, Debug)]
pub enum Check {
    BaseLogBelow2,
    BaseLogAbove31,
    ModulusBelow4,
    ModulusBelowBase,
    LevelsAboveFull,
    DimensionZero,
    DimensionAbove2048,
    PlaintextModulusBelow2,
    ModulusAtMostT,
    SecretLength,
    OutputKeyLength,
    KeyLength,
    InputLength,
    PackedCount,
    BodyIndex,
    OutputLength,
    MaskLength,
    ErrorLength,
    CoefficientLength,
    TagCount,
    BoundAboveLimit,
    BoundNotBelowQ,
    SecretWord,
    SecretNumber,
    OutputKeyWord,
    KeyWord,
    MaskWord,
    ErrorWord,
    InputWord,
    ErrorOutside,
    CoefficientOutside,
    MessageNotBelowT,
    TallyAboveCap,
    SummedAboveCap,
}

use Check::*;

impl Check {
    pub fn number(self) -> u32 {
        match self {
            BaseLogBelow2 | BaseLogAbove31 => 1,
            ModulusBelow4 => 2,
            ModulusBelowBase => 3,
            LevelsAboveFull => 5,
            DimensionZero | DimensionAbove2048 => 6,
            PlaintextModulusBelow2 => 7,
            ModulusAtMostT => 8,
            SecretLength | OutputKeyLength | KeyLength => 9,
            InputLength | PackedCount | BodyIndex => 10,
            OutputLength => 11,
            MaskLength | ErrorLength | CoefficientLength | TagCount => 12,
            BoundAboveLimit | BoundNotBelowQ => 13,
            SecretWord | SecretNumber | OutputKeyWord | KeyWord | MaskWord | ErrorWord
            | InputWord => 14,
            ErrorOutside | CoefficientOutside => 15,
            MessageNotBelowT => 16,
            TallyAboveCap | SummedAboveCap => 17,
        }
    }
}

/// The lengths that the operands of a call have to have; those that it does not take are empty.
#[derive(Default)]
struct Lengths {
    secret: u128,
    output_key: u128,
    key: u128,
    masks: u128,
    errors: u128,
    coefficients: u128,
    tags: u128,
    out: u128,
}

fn writing(out: u128) -> Lengths {
    Lengths {
        out,
        ..Lengths::default()
    }
}

fn opening(n: u128, out: u128) -> Lengths {
    Lengths {
        secret: n,
        ..writing(out)
    }
}

fn encrypting(n: u128, masks: u128, errors: u128, out: u128) -> Lengths {
    Lengths {
        masks,
        errors,
        ..opening(n, out)
    }
}

fn public_encrypting(n: u128) -> Lengths {
    Lengths {
        key: n * (n + 1),
        errors: n + 1,
        coefficients: n,
        ..writing(n + 1)
    }
}

/// Of a switching key; lengths that no operand can have stay too large.
fn entries(call: &Call) -> u128 {
    (call.n as u128).saturating_mul(call.level_count() as u128)
}

fn generating(call: &Call) -> Lengths {
    let (n, m, entries) = (call.n as u128, call.m as u128, entries(call));
    let (masks, out) = (entries.saturating_mul(m), entries.saturating_mul(m + 1));
    Lengths {
        output_key: m,
        ..encrypting(n, masks, entries, out)
    }
}

fn switching(call: &Call, rows: u128) -> Lengths {
    let width = call.m as u128 + 1;
    Lengths {
        key: entries(call).saturating_mul(width),
        tags: rows,
        ..writing(rows * width)
    }
}

fn lengths(call: &Call) -> Lengths {
    use Kind::*;
    let (n, count) = (call.n as u128, call.input.len() as u128);
    match call.kind {
        Basis => writing(6),
        Reading => writing(2),
        DigitsSingle | Digits => writing(call.level_count() as u128 * count),
        Encode | Decode => writing(0),
        EncodeSlice | DecodeSlice => writing(count),
        EncryptEncoded | EncryptEncodedSigned | EncryptMessage | EncryptMessageSigned => {
            encrypting(n, n, 1, n + 1)
        }
        EncryptMessageBatch => encrypting(n, n * count, count, (n + 1) * count),
        PackEncoded | PackMessage => encrypting(n, n, count, n + count),
        Phase | PhaseSigned | Message | MessageSigned => opening(n, 0),
        PhaseBatch | MessageBatch => opening(n, count / (n + 1)),
        PhasePacked | MessagePacked => opening(n, count.saturating_sub(n)),
        PublicKey | PublicKeySigned => encrypting(n, n * n, n, n * (n + 1)),
        PublicEncoded | PublicMessage => public_encrypting(n),
        Extract => Lengths {
            tags: 1,
            ..writing(n + 1)
        },
        Generate | GenerateSigned => generating(call),
        Switch => switching(call, 1),
        SwitchBatch => switching(call, count / (n + 1)),
    }
}

fn basis_checks(call: &Call) -> Vec<(Check, bool)> {
    let log = call.base_log;
    let below_base = call.modulus != 0 && log < 64 && call.q() < 1 << log;
    vec![
        (BaseLogBelow2, log < 2),
        (BaseLogAbove31, log > 31),
        (
            ModulusBelowBase,
            below_base || call.modulus != 0 && log >= 64,
        ),
        (LevelsAboveFull, call.levels > call.full_levels()),
    ]
}

fn dimension_checks(call: &Call) -> Vec<(Check, bool)> {
    let second = if call.kind.is_switching() {
        call.m
    } else {
        call.n
    };
    vec![
        (DimensionZero, call.n == 0 || second == 0),
        (DimensionAbove2048, call.n > 2048 || second > 2048),
    ]
}

fn plaintext_checks(call: &Call) -> Vec<(Check, bool)> {
    vec![
        (PlaintextModulusBelow2, call.t < 2),
        (ModulusAtMostT, call.q() <= call.t as u64),
    ]
}

fn bound_checks(call: &Call) -> Vec<(Check, bool)> {
    vec![
        (BoundAboveLimit, call.bound > 1 << 20),
        (BoundNotBelowQ, call.bound as u64 >= call.q()),
    ]
}

/// 10: what is read.
fn input_checks(call: &Call) -> Vec<(Check, bool)> {
    use Kind::*;
    let (n, count) = (call.n as u128, call.input.len() as u128);
    match call.kind {
        Phase | PhaseSigned | Message | MessageSigned | Switch => {
            vec![(InputLength, count != n + 1)]
        }
        PhaseBatch | MessageBatch | SwitchBatch => {
            vec![(InputLength, !count.is_multiple_of(n + 1))]
        }
        PackEncoded | PackMessage => vec![(PackedCount, count > n)],
        PhasePacked | MessagePacked => vec![(InputLength, count < n), (PackedCount, count > 2 * n)],
        Extract => vec![
            (InputLength, count < n),
            (PackedCount, count > 2 * n),
            (BodyIndex, call.index as u128 + n >= count),
        ],
        _ => vec![],
    }
}

fn length_checks(call: &Call) -> Vec<(Check, bool)> {
    let wanted = lengths(call);
    let number = call.kind.answers_a_number();
    vec![
        (SecretLength, call.secret.len() as u128 != wanted.secret),
        (
            OutputKeyLength,
            call.output_key.len() as u128 != wanted.output_key,
        ),
        (KeyLength, call.key.len() as u128 != wanted.key),
        (OutputLength, !number && call.out_len as u128 != wanted.out),
        (MaskLength, call.masks.len() as u128 != wanted.masks),
        (ErrorLength, call.errors.len() as u128 != wanted.errors),
        (
            CoefficientLength,
            call.coefficients.len() as u128 != wanted.coefficients,
        ),
        (TagCount, call.tags.len() as u128 != wanted.tags),
    ]
}

fn number_checks(call: &Call) -> Vec<(Check, bool)> {
    let q = call.q();
    let above = |words: &[u32]| words.iter().any(|&w| w as u64 >= q);
    let outside =
        |numbers: &[i32], most: u64| numbers.iter().any(|c| c.unsigned_abs() as u64 > most);
    let far = |e: &i64| e.unsigned_abs() > call.bound as u64;
    let (signed, messages) = (call.kind.is_signed(), call.kind.takes_messages());
    vec![
        (SecretWord, !signed && above(&call.secret)),
        (
            SecretNumber,
            signed && call.q() > 0 && outside(&call.numbers(), q - 1),
        ),
        (OutputKeyWord, above(&call.output_key)),
        (KeyWord, above(&call.key)),
        (MaskWord, above(&call.masks)),
        (
            ErrorWord,
            call.error_words && call.lent_errors().iter().any(|&w| w as u64 >= q),
        ),
        (InputWord, !messages && above(&call.input)),
        (ErrorOutside, call.signed_errors().iter().any(far)),
        (CoefficientOutside, outside(&call.coefficients, 1)),
        (
            MessageNotBelowT,
            messages && call.input.iter().any(|&m| m >= call.t),
        ),
        (
            TallyAboveCap,
            call.tags
                .iter()
                .any(|tag| tag.0 != NO_TALLY && tag.0 > 1 << 32),
        ),
        (
            SummedAboveCap,
            call.tags.iter().any(|tag| tag.1 > MOST_SUMMED),
        ),
    ]
}

/// 2^64 − 1, as the C calls have it.
pub const NO_TALLY: u64 = u64::MAX;
/// "A c, given or summed, above 65,536 falls under 17."
pub const MOST_SUMMED: u32 = 65536;

/// "A fresh single secret-key ciphertext has tally E; a public-key, packed or switched one has none"; c is "1 when fresh, kept by a
/// switch". One tag for what the call wrote, or that of each row it switched; what is no ciphertext has none.
pub fn tags(call: &Call) -> Vec<(u64, u32)> {
    use Kind::*;
    match call.kind {
        EncryptEncoded | EncryptEncodedSigned | EncryptMessage | EncryptMessageSigned
        | EncryptMessageBatch => vec![(call.bound as u64, 1)],
        PackEncoded | PackMessage | PublicEncoded | PublicMessage => vec![(NO_TALLY, 1)],
        _ => call.tags.iter().map(|&(_, c)| (NO_TALLY, c)).collect(),
    }
}

/// Of a refused call: no tally and c 1 where it answers a tag, and the tags of a batch as they were.
pub fn tags_refused(call: &Call) -> Vec<(u64, u32)> {
    use Kind::*;
    match call.kind {
        SwitchBatch => call.tags.clone(),
        _ => tags(call).iter().map(|_| (NO_TALLY, 1)).collect(),
    }
}

/// All checks that apply, in 01's order: the first gives the number.
pub fn applying(call: &Call) -> Vec<Check> {
    let kind = call.kind;
    let mut rows = vec![(ModulusBelow4, call.q() < 4)];
    if kind.has_basis() {
        rows.extend(basis_checks(call));
    }
    if kind.has_dimension() {
        rows.extend(dimension_checks(call));
    }
    if kind.has_t() {
        rows.extend(plaintext_checks(call));
    }
    if kind.has_bound() {
        rows.extend(bound_checks(call));
    }
    rows.extend(input_checks(call));
    rows.extend(length_checks(call));
    rows.extend(number_checks(call));
    let mut checks: Vec<Check> = rows.iter().filter(|row| row.1).map(|row| row.0).collect();
    checks.sort();
    checks
}
