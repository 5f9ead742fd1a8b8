//! The supplied Rust behind records of little-endian 32-bit words on standard input and output.
//! oracle/README.md has the table of calls.

use std::io::{self, Read, Write};

use supplied::call::{Call, Kind, Said};
use supplied::rust;

/// Operands in order: words, and runs as a count and then that many words. `None`: cut off.
struct Operands<'a>(&'a [u32]);

impl Operands<'_> {
    fn word(&mut self) -> Option<u32> {
        let (&word, rest) = self.0.split_first()?;
        self.0 = rest;
        Some(word)
    }
    fn run(&mut self) -> Option<Vec<u32>> {
        let count = self.word()? as usize;
        let (run, rest) = self.0.split_at_checked(count)?;
        self.0 = rest;
        Some(run.to_vec())
    }
    fn numbers(&mut self) -> Option<Vec<i32>> {
        Some(self.run()?.iter().map(|&w| w as i32).collect())
    }
    fn flag(&mut self) -> Option<bool> {
        match self.word()? {
            0 => Some(false),
            1 => Some(true),
            _ => None,
        }
    }
    /// Whether the secret is signed numbers, and the secret.
    fn secret(&mut self) -> Option<(bool, Vec<u32>)> {
        Some((self.flag()?, self.run()?))
    }
}

/// The record's call; outputs have the length that its operands give.
fn call(number: u32, modulus: u32, o: &mut Operands) -> Option<Call> {
    let call = Call {
        modulus,
        ..Call::default()
    };
    match number {
        1..4 => digits(number, call, o),
        10..13 => codec(number, call, o),
        20 | 23 => single(number, call, o),
        21 | 22 | 24 | 25 => messages(number, call, o),
        30..34 => packed(number, call, o),
        34 => sample(call, o),
        40 | 41 => public(number, call, o),
        50..53 => switching(number, call, o),
        _ => None,
    }
}

fn digits(number: u32, mut call: Call, o: &mut Operands) -> Option<Call> {
    (call.base_log, call.levels) = (o.word()?, o.word()?);
    if number == 1 {
        return Some(call);
    }
    call.kind = [Kind::Digits, Kind::DigitsSingle][number as usize - 2];
    call.input = o.run()?;
    call.out_len = levels(&call)? * call.input.len();
    Some(call)
}

/// L by the Rust; 0 where it refuses the basis.
fn levels(call: &Call) -> Option<usize> {
    match rust::weights(call) {
        Said::Words(weights) => Some(weights.len()),
        _ => Some(0),
    }
}

fn codec(number: u32, mut call: Call, o: &mut Operands) -> Option<Call> {
    call.kind = Kind::DecodeSlice;
    call.t = o.word()?;
    if number != 11 {
        call.kind = Kind::EncodeSlice;
        call.centered = o.flag()? as u32;
    }
    if number == 12 {
        call.masks = o.run()?;
    }
    call.input = o.run()?;
    call.out_len = call.input.len();
    Some(call)
}

fn single(number: u32, mut call: Call, o: &mut Operands) -> Option<Call> {
    let signed;
    (signed, call.secret) = o.secret()?;
    call.n = call.secret.len();
    if number == 23 {
        call.kind = [Kind::Phase, Kind::PhaseSigned][signed as usize];
        call.input = o.run()?;
        return Some(call);
    }
    call.kind = [Kind::EncryptEncoded, Kind::EncryptEncodedSigned][signed as usize];
    call.masks = o.run()?;
    call.errors = vec![o.word()? as i32];
    call.input = vec![o.word()?];
    call.out_len = call.n + 1;
    Some(call)
}

fn messages(number: u32, mut call: Call, o: &mut Operands) -> Option<Call> {
    call.t = o.word()?;
    if number < 23 {
        call.kind = [Kind::EncryptMessage, Kind::EncryptMessageBatch][number as usize - 21];
        call.centered = o.flag()? as u32;
        call.secret = o.run()?;
        call.masks = o.run()?;
        call.errors = o.numbers()?;
    } else {
        call.kind = [Kind::Message, Kind::MessageBatch][number as usize - 24];
        call.secret = o.run()?;
    }
    call.n = call.secret.len();
    call.input = o.run()?;
    call.out_len = match number {
        25 => call.input.len() / (call.n + 1),
        _ => call.input.len() * (call.n + 1),
    };
    Some(call)
}

fn packed(number: u32, mut call: Call, o: &mut Operands) -> Option<Call> {
    use Kind::*;
    call.kind = [PackEncoded, PackMessage, PhasePacked, MessagePacked][number as usize - 30];
    if call.kind.has_t() {
        call.t = o.word()?;
    }
    if number == 31 {
        call.centered = o.flag()? as u32;
    }
    call.secret = o.run()?;
    call.n = call.secret.len();
    if number < 32 {
        call.masks = o.run()?;
        call.errors = o.numbers()?;
    }
    call.input = o.run()?;
    Some(call)
}

fn sample(mut call: Call, o: &mut Operands) -> Option<Call> {
    call.kind = Kind::Extract;
    (call.n, call.index) = (o.word()? as usize, o.word()? as usize);
    call.input = o.run()?;
    Some(call)
}

fn public(number: u32, mut call: Call, o: &mut Operands) -> Option<Call> {
    if number == 40 {
        let signed;
        (signed, call.secret) = o.secret()?;
        call.kind = [Kind::PublicKey, Kind::PublicKeySigned][signed as usize];
        call.n = call.secret.len();
        call.masks = o.run()?;
        call.errors = o.numbers()?;
        return Some(call);
    }
    call.kind = Kind::PublicEncoded;
    call.n = o.word()? as usize;
    call.key = o.run()?;
    call.errors = o.numbers()?;
    call.coefficients = o.numbers()?;
    call.input = vec![o.word()?];
    call.out_len = call.n + 1;
    Some(call)
}

fn switching(number: u32, mut call: Call, o: &mut Operands) -> Option<Call> {
    (call.base_log, call.levels) = (o.word()?, o.word()?);
    if number == 50 {
        let signed;
        (signed, call.secret) = o.secret()?;
        call.kind = [Kind::Generate, Kind::GenerateSigned][signed as usize];
        call.output_key = o.run()?;
        (call.n, call.m) = (call.secret.len(), call.output_key.len());
        call.masks = o.run()?;
        call.errors = o.numbers()?;
        return Some(call);
    }
    call.kind = [Kind::Switch, Kind::SwitchBatch][number as usize - 51];
    (call.n, call.m) = (o.word()? as usize, o.word()? as usize);
    call.key = o.run()?;
    call.input = o.run()?;
    call.out_len = call.input.len() / (call.n + 1) * (call.m + 1);
    Some(call)
}

/// Calls 1 and 12 answer what the C service does not.
fn said(number: u32, call: &Call) -> Said {
    match (number, rust::weights(call)) {
        (12, _) => rust::added(call, &call.masks),
        (1, Said::Words(weights)) => match rust::said(call) {
            Said::Words(constants) => Said::Words([&constants[2..], &weights].concat()),
            other => other,
        },
        _ => rust::said(call),
    }
}

fn record(words: &[u32]) -> Option<Said> {
    let mut operands = Operands(words);
    let (number, modulus) = (operands.word()?, operands.word()?);
    let call = call(number, modulus, &mut operands)?;
    operands.0.is_empty().then(|| said(number, &call))
}

/// A status and words; README.md has the statuses.
fn answer(words: &[u32]) -> (u32, Vec<u32>) {
    match record(words) {
        Some(Said::Words(words)) => (0, words),
        Some(Said::Refused(number)) => (1, vec![number]),
        Some(Said::Panicked) => (2, vec![]),
        _ => (3, vec![]),
    }
}

fn read_word(input: &mut impl Read) -> io::Result<u32> {
    let mut bytes = [0; 4];
    input.read_exact(&mut bytes)?;
    Ok(u32::from_le_bytes(bytes))
}

fn main() -> io::Result<()> {
    rust::quiet();
    let mut input = io::stdin().lock();
    let mut output = io::BufWriter::new(io::stdout().lock());
    loop {
        let count = match read_word(&mut input) {
            Err(error) if error.kind() == io::ErrorKind::UnexpectedEof => return output.flush(),
            word => word?,
        };
        let words: Vec<u32> = (0..count)
            .map(|_| read_word(&mut input))
            .collect::<io::Result<_>>()?;
        let (status, words) = answer(&words);
        for word in [words.len() as u32 + 1, status].iter().chain(&words) {
            output.write_all(&word.to_le_bytes())?;
        }
        output.flush()?;
    }
}
