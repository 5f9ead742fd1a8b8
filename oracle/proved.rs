//! The proved library, called through C with the operands of a `Call`.

#[path = "../include/saigagalena.rs"]
mod saigagalena;

use saigagalena::*;
use supplied::call::{Call, Kind, Said};

/// Stands in every output before the call; a refused call leaves it.
const FILL: u32 = 0xaaaa_aaaa;

/// What the library said, and the tally and c of what it wrote: of each row where a batch is switched, none where the call tells no tag.
pub struct Told {
    pub said: Said,
    pub tags: Vec<(u64, u32)>,
}

impl From<Said> for Told {
    fn from(said: Said) -> Told {
        Told { said, tags: vec![] }
    }
}

/// A tag as a `Call` has it.
fn numbers(tag: &Tag) -> (u64, u32) {
    (tag.tally(), tag.count())
}

fn tags(c: &Call) -> Vec<Tag> {
    let tags = c.tags.iter();
    // SAFETY: two numbers go in, and a tag comes out.
    tags.map(|&(tally, count)| unsafe { saigagalena_saved_tag(tally, count) })
        .collect()
}

/// A call that writes: its numbers, its runs, what else it takes, and the output. What it returns, and the output.
/// Of two functions, the second takes the errors as words.
macro_rules! lent {
    ($call:ident, [$signed:ident, $words:ident], $($rest:tt)*) => {
        if $call.error_words {
            lent!($call, $words, $($rest)*)
        } else {
            lent!($call, $signed, $($rest)*)
        }
    };
    ($call:ident, $function:ident, [$($number:expr),*], [$($run:ident),*] $(, $last:expr)*) => {{
        let mut out = vec![FILL; $call.out_len];
        // SAFETY: each pointer and length is one run of the call, alive and lent while the function runs.
        let returned = unsafe {
            $function($($number,)* $(start(&$call.$run), $call.$run.len(),)* $($last,)* out.as_mut_ptr(), out.len())
        };
        (returned, out)
    }};
}

/// A call that writes and returns a number.
macro_rules! writing {
    ($($operand:tt)*) => {{
        let (number, out) = lent!($($operand)*);
        written(number, out)
    }};
}

/// A call that writes ciphertexts and returns their tag.
macro_rules! tagging {
    ($($operand:tt)*) => {{
        let (answer, out) = lent!($($operand)*);
        Told { said: written(answer.refusal, out), tags: vec![numbers(&answer.tag)] }
    }};
}

/// A call that answers a number: 2^32 and the refusal where it is refused.
macro_rules! answering {
    ($call:ident, $function:ident, [$($number:expr),*], [$($run:ident),*]) => {{
        // SAFETY: as above.
        let answer = unsafe { $function($($number,)* $(start(&$call.$run), $call.$run.len(),)*) };
        if answer < 1 << 32 {
            Said::Words(vec![answer as u32])
        } else {
            Said::Refused((answer - (1 << 32)) as u32)
        }
    }};
}

/// Null where there is nothing, as the header allows.
fn start<S, T>(run: &[S]) -> *const T {
    if run.is_empty() {
        std::ptr::null()
    } else {
        run.as_ptr().cast()
    }
}

fn written(number: u32, out: Vec<u32>) -> Said {
    if number == 0 {
        Said::Words(out)
    } else if out.iter().all(|&w| w == FILL) {
        Said::Refused(number)
    } else {
        Said::Spoiled(number)
    }
}

/// The Rust has no T: it is left out here.
fn basis(c: &Call) -> Said {
    let said = writing!(c, saigagalena_basis, [c.modulus, c.base_log, c.levels], []);
    match said {
        Said::Words(words) => Said::Words(words[..5].to_vec()),
        other => other,
    }
}

/// Reading and error, each as two words, lower first.
fn reading(c: &Call) -> Said {
    let fill = FILL as i64;
    let mut out = vec![fill; c.out_len];
    let word = c.value();
    // SAFETY: the output is one run, lent while the function runs.
    let number = unsafe {
        saigagalena_reading(
            c.modulus,
            c.base_log,
            c.levels,
            word,
            out.as_mut_ptr(),
            out.len(),
        )
    };
    if number != 0 && out.iter().any(|&x| x != fill) {
        return Said::Spoiled(number);
    }
    if number != 0 {
        return Said::Refused(number);
    }
    let words = out.iter().flat_map(|&x| [x as u32, (x >> 32) as u32]);
    Said::Words(words.collect())
}

fn basis_call(c: &Call) -> Said {
    match c.kind {
        Kind::Basis => basis(c),
        Kind::Reading => reading(c),
        _ => writing!(
            c,
            saigagalena_decompose,
            [c.modulus, c.base_log, c.levels],
            [input]
        ),
    }
}

fn codec_call(c: &Call) -> Said {
    let centered = c.centered;
    match c.kind {
        Kind::Encode => answering!(
            c,
            saigagalena_encode,
            [c.modulus, c.t, centered, c.value()],
            []
        ),
        Kind::Decode => answering!(c, saigagalena_decode, [c.modulus, c.t, c.value()], []),
        Kind::EncodeSlice => writing!(
            c,
            saigagalena_encode_slice,
            [c.modulus, c.t, centered],
            [input]
        ),
        _ => writing!(c, saigagalena_decode_slice, [c.modulus, c.t], [input]),
    }
}

fn encryption_call(c: &Call) -> Told {
    let (q, n, t, bound, centered) = (c.modulus, c.n, c.t, c.bound, c.centered);
    match c.kind {
        Kind::EncryptEncoded => tagging!(
            c,
            [
                saigagalena_encrypt_encoded,
                saigagalena_encrypt_encoded_error_words
            ],
            [q, n, bound],
            [secret, masks, errors],
            c.value()
        ),
        Kind::EncryptEncodedSigned => tagging!(
            c,
            [
                saigagalena_encrypt_encoded_signed,
                saigagalena_encrypt_encoded_signed_error_words
            ],
            [q, n, bound],
            [secret, masks, errors],
            c.value()
        ),
        Kind::EncryptMessage => tagging!(
            c,
            [
                saigagalena_encrypt_message,
                saigagalena_encrypt_message_error_words
            ],
            [q, n, t, bound, centered],
            [secret, masks, errors],
            c.value()
        ),
        _ => tagging!(
            c,
            [
                saigagalena_encrypt_message_signed,
                saigagalena_encrypt_message_signed_error_words
            ],
            [q, n, t, bound, centered],
            [secret, masks, errors],
            c.value()
        ),
    }
}

/// Of many words or messages: a batch, or packed.
fn run_encryption_call(c: &Call) -> Told {
    let (q, n, t, bound, centered) = (c.modulus, c.n, c.t, c.bound, c.centered);
    match c.kind {
        Kind::EncryptMessageBatch => tagging!(
            c,
            [
                saigagalena_encrypt_message_batch,
                saigagalena_encrypt_message_batch_error_words
            ],
            [q, n, t, bound, centered],
            [secret, masks, errors, input]
        ),
        Kind::PackEncoded => tagging!(
            c,
            [
                saigagalena_encrypt_encoded_packed,
                saigagalena_encrypt_encoded_packed_error_words
            ],
            [q, n, bound],
            [secret, masks, errors, input]
        ),
        _ => tagging!(
            c,
            [
                saigagalena_encrypt_message_packed,
                saigagalena_encrypt_message_packed_error_words
            ],
            [q, n, t, bound, centered],
            [secret, masks, errors, input]
        ),
    }
}

fn opening_call(c: &Call) -> Said {
    let (q, n, t) = (c.modulus, c.n, c.t);
    match c.kind {
        Kind::Phase => answering!(c, saigagalena_decrypt_phase, [q, n], [secret, input]),
        Kind::PhaseSigned => {
            answering!(c, saigagalena_decrypt_phase_signed, [q, n], [secret, input])
        }
        Kind::Message => answering!(c, saigagalena_decrypt_message, [q, n, t], [secret, input]),
        _ => answering!(
            c,
            saigagalena_decrypt_message_signed,
            [q, n, t],
            [secret, input]
        ),
    }
}

/// Of a batch, or of what was packed.
fn run_opening_call(c: &Call) -> Said {
    let (q, n, t) = (c.modulus, c.n, c.t);
    match c.kind {
        Kind::PhaseBatch => writing!(c, saigagalena_decrypt_phase_batch, [q, n], [secret, input]),
        Kind::MessageBatch => writing!(
            c,
            saigagalena_decrypt_message_batch,
            [q, n, t],
            [secret, input]
        ),
        Kind::PhasePacked => writing!(c, saigagalena_decrypt_phase_packed, [q, n], [secret, input]),
        _ => writing!(
            c,
            saigagalena_decrypt_message_packed,
            [q, n, t],
            [secret, input]
        ),
    }
}

/// Keys, which have no tag.
fn key_call(c: &Call) -> Said {
    let (q, n, log, levels, m, bound) = (c.modulus, c.n, c.base_log, c.levels, c.m, c.bound);
    match c.kind {
        Kind::PublicKey => writing!(
            c,
            [
                saigagalena_public_key_generate,
                saigagalena_public_key_generate_error_words
            ],
            [q, n, bound],
            [secret, masks, errors]
        ),
        Kind::PublicKeySigned => writing!(
            c,
            [
                saigagalena_public_key_generate_signed,
                saigagalena_public_key_generate_signed_error_words
            ],
            [q, n, bound],
            [secret, masks, errors]
        ),
        Kind::Generate => writing!(
            c,
            [
                saigagalena_switching_key_generate,
                saigagalena_switching_key_generate_error_words
            ],
            [q, log, levels, n, m, bound],
            [secret, output_key, masks, errors]
        ),
        _ => writing!(
            c,
            [
                saigagalena_switching_key_generate_signed,
                saigagalena_switching_key_generate_signed_error_words
            ],
            [q, log, levels, n, m, bound],
            [secret, output_key, masks, errors]
        ),
    }
}

fn public_call(c: &Call) -> Told {
    let (q, n, t, bound, centered) = (c.modulus, c.n, c.t, c.bound, c.centered);
    match c.kind {
        Kind::PublicEncoded => tagging!(
            c,
            [
                saigagalena_public_key_encrypt_encoded,
                saigagalena_public_key_encrypt_encoded_error_words
            ],
            [q, n, bound],
            [key, errors, coefficients],
            c.value()
        ),
        _ => tagging!(
            c,
            [
                saigagalena_public_key_encrypt_message,
                saigagalena_public_key_encrypt_message_error_words
            ],
            [q, n, t, bound, centered],
            [key, errors, coefficients],
            c.value()
        ),
    }
}

fn switching_call(c: &Call) -> Told {
    let (q, log, levels, n, m) = (c.modulus, c.base_log, c.levels, c.n, c.m);
    let mut tags = tags(c);
    if c.kind == Kind::Switch {
        return tagging!(
            c,
            saigagalena_key_switch,
            [q, log, levels, n, m],
            [key, input],
            tags[0]
        );
    }
    let said = writing!(
        c,
        saigagalena_key_switch_batch,
        [q, log, levels, n, m],
        [key, input],
        tags.as_mut_ptr(),
        tags.len()
    );
    Told {
        said,
        tags: tags.iter().map(numbers).collect(),
    }
}

pub fn told(c: &Call) -> Told {
    use Kind::*;
    match c.kind {
        Basis | Reading | DigitsSingle | Digits => basis_call(c).into(),
        Encode | Decode | EncodeSlice | DecodeSlice => codec_call(c).into(),
        EncryptEncoded | EncryptEncodedSigned | EncryptMessage | EncryptMessageSigned => {
            encryption_call(c)
        }
        EncryptMessageBatch | PackEncoded | PackMessage => run_encryption_call(c),
        Phase | PhaseSigned | Message | MessageSigned => opening_call(c).into(),
        PhaseBatch | MessageBatch | PhasePacked | MessagePacked => run_opening_call(c).into(),
        PublicKey | PublicKeySigned | Generate | GenerateSigned => key_call(c).into(),
        PublicEncoded | PublicMessage => public_call(c),
        Extract => tagging!(
            c,
            saigagalena_extract,
            [c.modulus, c.n],
            [input],
            tags(c)[0],
            c.index
        ),
        Switch | SwitchBatch => switching_call(c),
    }
}
