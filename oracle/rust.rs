//! The supplied Rust, called with the operands of a `Call`.

use std::panic::{AssertUnwindSafe, catch_unwind};
use std::sync::atomic::{AtomicBool, Ordering};

use primus_decompose::primitive::ApproxSignedBasis;
use primus_decompose::{ApproxSignedBasisError, DecompositionBaseLog, DecompositionLevelCount};
use primus_distr::DiscreteGaussian;
use primus_encoding::{CodecError, PlaintextEmbedding, RoundedCodec};
use primus_lattice::LweDimension;
use primus_lattice::lwe::{Lwe, MultiMsgLwe};
use primus_lwe::{
    LweEncryptionParameters, LweKeySwitchingKey, LweKeySwitchingParameters, LweParameters,
    LwePublicKey, LweSecretKey, LweSecretKeyRef, SecretKeyDistr,
};
use primus_modulus::{NativeModulus, UintModulus};
use primus_reduce::RingContext;

use crate::call::{Call, Kind, Said};

/// Stands in every output before the call.
const FILL: u32 = 0xaaaa_aaaa;

/// A call of the Rust is under way.
static INSIDE: AtomicBool = AtomicBool::new(false);

type Answer = Result<Vec<u32>, Said>;

/// The generator: lent runs, each used from the front.
#[derive(Default)]
struct Lent {
    words: std::vec::IntoIter<u64>,
    errors: std::vec::IntoIter<i64>,
    coefficients: std::vec::IntoIter<i8>,
}

impl Lent {
    fn of(call: &Call) -> Self {
        let words: Vec<u64> = call.masks.iter().map(|&w| w as u64).collect();
        let coefficients: Vec<i8> = call.coefficients.iter().map(|&c| c as i8).collect();
        Self {
            words: words.into_iter(),
            errors: call.lent_errors().into_iter(),
            coefficients: coefficients.into_iter(),
        }
    }
    /// Rows of `len` words, the last one lent as the error: under a zero secret `generate` writes them back.
    fn rows(key: &[u32], len: usize) -> Self {
        let mut words = Vec::new();
        let mut errors = Vec::new();
        for row in key.chunks_exact(len) {
            words.extend(row[..len - 1].iter().map(|&w| w as u64));
            errors.push(row[len - 1] as i64);
        }
        Self {
            words: words.into_iter(),
            errors: errors.into_iter(),
            ..Self::default()
        }
    }
    fn end(self) -> Result<(), Said> {
        if self.words.len() + self.errors.len() + self.coefficients.len() == 0 {
            Ok(())
        } else {
            Err(Said::LeftOver)
        }
    }
}

impl rand::Rng for Lent {
    fn lent_word(&mut self) -> u64 {
        self.words.next().expect("masks used up")
    }
    fn lent_error(&mut self) -> i64 {
        self.errors.next().expect("errors used up")
    }
    fn lent_coefficient(&mut self) -> i8 {
        self.coefficients.next().expect("coefficients used up")
    }
}

impl rand::CryptoRng for Lent {}

fn basis(call: &Call) -> Result<ApproxSignedBasis<u32>, Said> {
    let log = DecompositionBaseLog::try_new(call.base_log).map_err(|_| Said::Refused(1))?;
    let levels = match call.levels {
        0 => None,
        levels => Some(DecompositionLevelCount::new(levels as usize)),
    };
    ApproxSignedBasis::try_new(call.explicit(), log, levels).map_err(|error| {
        Said::Refused(match error {
            ApproxSignedBasisError::InvalidLogBasis { .. } => 1,
            ApproxSignedBasisError::BasisExceedsModulus => 3,
            _ => 5,
        })
    })
}

fn dimension(n: usize) -> Result<LweDimension, Said> {
    LweDimension::try_new(n).map_err(|_| Said::Refused(6))
}

fn codec<M: RingContext<u32>>(call: &Call, modulus: M) -> Result<RoundedCodec<u32, M>, Said> {
    RoundedCodec::try_new(call.t, modulus).map_err(|error| {
        Said::Refused(match error {
            CodecError::InvalidPlaintextModulus => 7,
            _ => 8,
        })
    })
}

fn encryption<M: RingContext<u32>>(
    n: usize,
    modulus: M,
) -> Result<LweEncryptionParameters<u32, M>, Said> {
    let n = dimension(n)?;
    Ok(LweEncryptionParameters::new(
        n,
        modulus,
        SecretKeyDistr::Lent,
        1.0,
    ))
}

fn parameters<M: RingContext<u32>>(call: &Call, modulus: M) -> Result<LweParameters<u32, M>, Said> {
    let n = dimension(call.n)?;
    codec(call, modulus)?;
    Ok(LweParameters::new(
        n,
        call.t,
        modulus,
        SecretKeyDistr::Lent,
        1.0,
    ))
}

fn noise<M: RingContext<u32>>(modulus: M) -> DiscreteGaussian<u32> {
    DiscreteGaussian::new(1.0, modulus.minus_one()).expect("the shim accepts")
}

fn embedding(call: &Call) -> PlaintextEmbedding {
    if call.centered != 0 {
        PlaintextEmbedding::Centered
    } else {
        PlaintextEmbedding::Unsigned
    }
}

fn owned<M: RingContext<u32>>(secret: &[u32], modulus: M) -> LweSecretKey<u32> {
    LweSecretKey::new(secret.to_vec(), SecretKeyDistr::Lent, modulus)
}

fn output(call: &Call) -> Vec<u32> {
    vec![FILL; call.out_len]
}

/// The weights of a basis: a call that the C service has not.
pub fn weights(call: &Call) -> Said {
    caught(|| Ok(basis(call)?.scalar_iter().collect()))
}

/// k, B, L, d, H. The Rust keeps no k: it is d and L base logs.
fn constants(call: &Call) -> Answer {
    let basis = basis(call)?;
    let (levels, dropped) = (basis.level_count().get() as u32, basis.drop_bits());
    Ok(vec![
        dropped + levels * basis.log_basis().get(),
        basis.basis_value(),
        levels,
        dropped,
        basis.approximate_error_bound(),
    ])
}

/// L runs, lowest level first.
fn digits_by_slices(basis: &ApproxSignedBasis<u32>, words: &[u32], out: &mut [u32]) {
    let mut adjusted = vec![FILL; words.len()];
    let mut carries = vec![true; words.len()];
    basis.init_value_carry_slice_to(words, &mut adjusted, &mut carries);
    let runs = out.chunks_mut(words.len().max(1));
    for (decomposer, run) in basis.decomposer_iter().zip(runs) {
        decomposer.decompose_slice_to(&adjusted, run, &mut carries);
    }
}

fn digits_of(basis: &ApproxSignedBasis<u32>, word: u32) -> Vec<u32> {
    let (adjusted, mut carry) = basis.init_value_carry(word);
    let mut out = Vec::new();
    for decomposer in basis.decomposer_iter() {
        let (digit, next) = decomposer.decompose(adjusted, carry);
        out.push(digit);
        carry = next;
    }
    out
}

fn digits(call: &Call) -> Answer {
    let basis = basis(call)?;
    let mut out = output(call);
    if call.kind == Kind::Digits {
        digits_by_slices(&basis, &call.input, &mut out);
        return Ok(out);
    }
    let all: Vec<_> = call.input.iter().map(|&w| digits_of(&basis, w)).collect();
    let levels = basis.level_count().get();
    Ok((0..levels)
        .flat_map(|j| all.iter().map(move |digits| digits[j]))
        .collect())
}

/// The Rust has no reading: the sum of its digits by its weights, and what is missing to the word.
fn reading(call: &Call) -> Answer {
    let basis = basis(call)?;
    let (q, word, bound) = (
        call.q() as i64,
        call.value(),
        basis.approximate_error_bound() as i64,
    );
    let digits = digits_of(&basis, word);
    let reading: i64 = basis
        .scalar_iter()
        .zip(digits)
        .map(|(weight, digit)| {
            let digit = digit as i64;
            let half = basis.basis_value() as i64 / 2;
            weight as i64 * if digit < half { digit } else { digit - q }
        })
        .sum();
    let missing = word as i64 - reading;
    let missing = if missing.abs() <= bound {
        missing
    } else {
        missing - q
    };
    Ok([reading, missing]
        .iter()
        .flat_map(|&x| [x as u32, (x >> 32) as u32])
        .collect())
}

fn coding<M: RingContext<u32>>(call: &Call, modulus: M) -> Answer {
    let codec = codec(call, modulus)?;
    let mut out = output(call);
    match call.kind {
        Kind::Encode => return Ok(vec![codec.encode_value(call.value(), embedding(call))]),
        Kind::Decode => return Ok(vec![codec.decode_value(call.value())]),
        Kind::EncodeSlice => codec.encode_slice_to(&call.input, &mut out, embedding(call)),
        _ => codec.decode_slice_to(&call.input, &mut out),
    }
    Ok(out)
}

/// Encodings added to accumulators: a call that the C service has not.
pub fn added(call: &Call, accumulators: &[u32]) -> Said {
    fn sums<M: RingContext<u32>>(call: &Call, accumulators: &[u32], modulus: M) -> Answer {
        let mut out = accumulators.to_vec();
        codec(call, modulus)?.add_encode_slice_assign(&mut out, &call.input, embedding(call));
        Ok(out)
    }
    caught(|| match call.modulus {
        0 => sums(call, accumulators, NativeModulus::new()),
        q => sums(call, accumulators, UintModulus(q)),
    })
}

/// The one input as a plaintext: a message is encoded first, as the Rust has no such call under a signed or public key.
fn plaintext<M: RingContext<u32>>(call: &Call, modulus: M) -> Result<u32, Said> {
    if call.kind.takes_messages() {
        Ok(codec(call, modulus)?.encode_value(call.value(), embedding(call)))
    } else {
        Ok(call.value())
    }
}

fn encrypted<M: RingContext<u32>>(call: &Call, modulus: M) -> Answer {
    let plaintext = plaintext(call, modulus)?;
    let mut lent = Lent::of(call);
    let mut out = Lwe::new(output(call));
    let numbers = call.numbers();
    let secret = if call.kind.is_signed() {
        LweSecretKeyRef::Signed(&numbers)
    } else {
        LweSecretKeyRef::Encoded(&call.secret)
    };
    let uniform = modulus.uniform_distribution();
    secret.encrypt_encoded_to(
        plaintext,
        &mut out,
        modulus,
        uniform,
        &noise(modulus),
        &mut lent,
    );
    lent.end()?;
    Ok(out.0)
}

fn encrypted_messages<M: RingContext<u32>>(call: &Call, modulus: M) -> Answer {
    let parameters = parameters(call, modulus)?;
    let mut lent = Lent::of(call);
    let mut out = output(call);
    let key = owned(&call.secret, modulus);
    if call.kind == Kind::EncryptMessage {
        let mut ciphertext = Lwe::new(out.as_mut_slice());
        let message = call.value();
        key.encrypt_message_to(
            message,
            &mut ciphertext,
            &parameters,
            embedding(call),
            &mut lent,
        );
    } else {
        key.encrypt_message_batch_to(
            &call.input,
            &mut out,
            &parameters,
            embedding(call),
            &mut lent,
        );
    }
    lent.end()?;
    Ok(out)
}

fn packed<M: RingContext<u32>>(call: &Call, modulus: M) -> Answer {
    let key = owned(&call.secret, modulus);
    let mut lent = Lent::of(call);
    let out = if call.kind == Kind::PackEncoded {
        key.encrypt_encoded_packed(&call.input, &encryption(call.n, modulus)?, &mut lent)
    } else {
        let parameters = parameters(call, modulus)?;
        key.encrypt_message_packed(&call.input, &parameters, embedding(call), &mut lent)
    };
    lent.end()?;
    Ok(out.0)
}

fn phase<M: RingContext<u32>>(call: &Call, ciphertext: &[u32], modulus: M) -> u32 {
    let ciphertext = Lwe::new(ciphertext);
    if call.kind.is_signed() {
        LweSecretKeyRef::Signed(&call.numbers()).decrypt_phase(&ciphertext, modulus)
    } else {
        LweSecretKeyRef::Encoded(&call.secret).decrypt_phase(&ciphertext, modulus)
    }
}

fn opened<M: RingContext<u32>>(call: &Call, modulus: M) -> Answer {
    let key = owned(&call.secret, modulus);
    match call.kind {
        Kind::Phase | Kind::PhaseSigned => Ok(vec![phase(call, &call.input, modulus)]),
        Kind::Message => {
            let parameters = parameters(call, modulus)?;
            let ciphertext = Lwe::new(call.input.as_slice());
            Ok(vec![key.decrypt_message(&ciphertext, &parameters)])
        }
        // Under a signed key the Rust has no such call: phase, then codec.
        Kind::MessageSigned => {
            let codec = codec(call, modulus)?;
            Ok(vec![codec.decode_value(phase(call, &call.input, modulus))])
        }
        // The Rust's batch of phases was not supplied: one after another.
        Kind::PhaseBatch => Ok(call
            .input
            .chunks(call.n + 1)
            .map(|ciphertext| phase(call, ciphertext, modulus))
            .collect()),
        _ => {
            let mut out = output(call);
            key.decrypt_message_batch_to(&call.input, &mut out, &parameters(call, modulus)?);
            Ok(out)
        }
    }
}

fn opened_packed<M: RingContext<u32>>(call: &Call, modulus: M) -> Answer {
    let ciphertext = MultiMsgLwe::new(call.input.as_slice());
    let key = owned(&call.secret, modulus);
    if call.kind == Kind::PhasePacked {
        return Ok(key.decrypt_phase_packed(&ciphertext, modulus));
    }
    Ok(key.decrypt_message_packed(&ciphertext, &parameters(call, modulus)?))
}

fn extracted<M: RingContext<u32>>(call: &Call, modulus: M) -> Answer {
    let ciphertext = MultiMsgLwe::new(call.input.as_slice());
    Ok(ciphertext.extract_lwe_at(call.index, call.n, modulus).0)
}

fn public_key<M: RingContext<u32>>(
    secret: LweSecretKeyRef<'_, u32>,
    n: usize,
    mut lent: Lent,
    modulus: M,
) -> Result<LwePublicKey<u32>, Said> {
    let uniform = modulus.uniform_distribution();
    let n = dimension(n)?;
    let key = LwePublicKey::generate(secret, n, modulus, uniform, &noise(modulus), &mut lent);
    lent.end()?;
    Ok(key)
}

fn public_generated<M: RingContext<u32>>(call: &Call, modulus: M) -> Answer {
    let numbers = call.numbers();
    let secret = if call.kind.is_signed() {
        LweSecretKeyRef::Signed(&numbers)
    } else {
        LweSecretKeyRef::Encoded(&call.secret)
    };
    let key = public_key(secret, call.n, Lent::of(call), modulus)?;
    Ok(key.as_slice().to_vec())
}

/// Keys have no constructor but `generate`: secrets of zeros, the bodies lent as errors.
fn public_encrypted<M: RingContext<u32>>(call: &Call, modulus: M) -> Answer {
    let plaintext = plaintext(call, modulus)?;
    let zero = vec![0; call.n];
    let rows = Lent::rows(&call.key, call.n + 1);
    let key = public_key(LweSecretKeyRef::Encoded(&zero), call.n, rows, modulus)?;
    assert_eq!(key.as_slice(), call.key, "the key was not loaded");
    let mut lent = Lent::of(call);
    let mut out = Lwe::new(output(call));
    key.encrypt_encoded_to(plaintext, &mut out, modulus, &noise(modulus), &mut lent);
    lent.end()?;
    Ok(out.0)
}

fn switching_key<M: RingContext<u32>>(
    call: &Call,
    secret: LweSecretKeyRef<'_, u32>,
    target: &[u32],
    mut lent: Lent,
    modulus: M,
) -> Result<LweKeySwitchingKey<u32>, Said> {
    let basis = basis(call)?;
    let parameters = LweKeySwitchingParameters::new(encryption(call.m, modulus)?, basis);
    let target = owned(target, modulus);
    let key = LweKeySwitchingKey::generate(secret, &target, &parameters, &mut lent);
    lent.end()?;
    Ok(key)
}

fn generated<M: RingContext<u32>>(call: &Call, modulus: M) -> Answer {
    let numbers = call.numbers();
    let secret = if call.kind.is_signed() {
        LweSecretKeyRef::Signed(&numbers)
    } else {
        LweSecretKeyRef::Encoded(&call.secret)
    };
    let key = switching_key(call, secret, &call.output_key, Lent::of(call), modulus)?;
    Ok(key.as_slice().to_vec())
}

/// The key is loaded as in `public_encrypted`; it has dimensions, so none of 0.
fn switched<M: RingContext<u32>>(call: &Call, modulus: M) -> Answer {
    dimension(call.n)?;
    dimension(call.m)?;
    let (input, target) = (vec![0; call.n], vec![0; call.m]);
    let rows = Lent::rows(&call.key, call.m + 1);
    let key = switching_key(
        call,
        LweSecretKeyRef::Encoded(&input),
        &target,
        rows,
        modulus,
    )?;
    assert_eq!(key.as_slice(), call.key, "the key was not loaded");
    let mut out = Lwe::new(output(call));
    if call.kind == Kind::Switch {
        key.key_switch_to(&Lwe::new(call.input.as_slice()), &mut out, modulus);
    } else {
        key.key_switch_batch_to(&call.input, &mut out.0, modulus);
    }
    Ok(out.0)
}

fn answer<M: RingContext<u32>>(call: &Call, modulus: M) -> Answer {
    use Kind::*;
    match call.kind {
        Basis => constants(call),
        Reading => reading(call),
        DigitsSingle | Digits => digits(call),
        Encode | Decode | EncodeSlice | DecodeSlice => coding(call, modulus),
        EncryptEncoded | EncryptEncodedSigned | EncryptMessageSigned => encrypted(call, modulus),
        EncryptMessage | EncryptMessageBatch => encrypted_messages(call, modulus),
        PackEncoded | PackMessage => packed(call, modulus),
        Phase | PhaseSigned | Message | MessageSigned | PhaseBatch | MessageBatch => {
            opened(call, modulus)
        }
        PhasePacked | MessagePacked => opened_packed(call, modulus),
        PublicKey | PublicKeySigned => public_generated(call, modulus),
        PublicEncoded | PublicMessage => public_encrypted(call, modulus),
        Extract => extracted(call, modulus),
        Generate | GenerateSigned => generated(call, modulus),
        Switch | SwitchBatch => switched(call, modulus),
    }
}

fn caught(call: impl FnOnce() -> Answer) -> Said {
    INSIDE.store(true, Ordering::Relaxed);
    let said = match catch_unwind(AssertUnwindSafe(call)) {
        Ok(Ok(words)) => Said::Words(words),
        Ok(Err(said)) => said,
        Err(_) => Said::Panicked,
    };
    INSIDE.store(false, Ordering::Relaxed);
    said
}

pub fn said(call: &Call) -> Said {
    caught(|| match call.modulus {
        0 => answer(call, NativeModulus::new()),
        q => answer(call, UintModulus(q)),
    })
}

/// Panics of the Rust are caught and print nothing; others print as ever.
pub fn quiet() {
    let usual = std::panic::take_hook();
    std::panic::set_hook(Box::new(move |panic| {
        if !INSIDE.load(Ordering::Relaxed) {
            usual(panic);
        }
    }));
}
