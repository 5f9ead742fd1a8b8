//! Everything that is small, on both sides.

use crate::compare::compare;
use crate::draw::Draw;
use crate::report::Report;
use supplied::call::{Call, Kind};

/// Base logs and level counts of a modulus.
fn bases(q: u32) -> Vec<Call> {
    let mut bases = Vec::new();
    for base_log in 2..=q.ilog2() {
        let basis = Call {
            modulus: q,
            base_log,
            ..Call::default()
        };
        for levels in 0..=basis.full_levels() {
            bases.push(Call {
                levels,
                ..basis.clone()
            });
        }
    }
    bases
}

/// Every basis and every word of q.
fn digits(report: &mut Report, q: u32) {
    for mut call in bases(q) {
        call.out_len = 6;
        report.add(&call, compare(&call));
        call.kind = Kind::Digits;
        call.input = (0..q).collect();
        call.out_len = call.level_count() * q as usize;
        report.add(&call, compare(&call));
        for word in 0..q {
            call.input = vec![word];
            (call.kind, call.out_len) = (Kind::DigitsSingle, call.level_count());
            report.add(&call, compare(&call));
            (call.kind, call.out_len) = (Kind::Reading, 2);
            report.add(&call, compare(&call));
        }
    }
}

/// Every message and every word for q and t, one by one and as a slice; and one past the last of each.
fn codec(report: &mut Report, q: u32, t: u32) {
    for (one, slice, centered, count) in [
        (Kind::Encode, Kind::EncodeSlice, 0, t),
        (Kind::Encode, Kind::EncodeSlice, 1, t),
        (Kind::Decode, Kind::DecodeSlice, 0, q),
    ] {
        let mut call = Call {
            kind: slice,
            modulus: q,
            t,
            centered,
            input: (0..count).collect(),
            out_len: count as usize,
            ..Call::default()
        };
        report.add(&call, compare(&call));
        (call.kind, call.out_len) = (one, 0);
        for number in 0..=count {
            call.input = vec![number];
            report.add(&call, compare(&call));
        }
    }
}

/// Every ciphertext of one mask word under a random key, one by one and as a batch.
fn switches(report: &mut Report, draw: &mut Draw, q: u32) {
    for mut call in bases(q) {
        (call.n, call.m) = (1, 1);
        call.key = (0..2 * call.level_count())
            .map(|_| draw.below(q as u64) as u32)
            .collect();
        let all: Vec<Vec<u32>> = (0..q * q).map(|i| vec![i / q, i % q]).collect();
        call.kind = Kind::SwitchBatch;
        call.input = all.concat();
        call.tags = (0..q * q).map(|i| (u64::MAX, i)).collect();
        call.out_len = call.input.len();
        report.add(&call, compare(&call));
        (call.kind, call.out_len) = (Kind::Switch, 2);
        for ciphertext in all {
            call.tags = vec![(ciphertext[0] as u64, ciphertext[1])];
            call.input = ciphertext;
            report.add(&call, compare(&call));
        }
    }
}

/// Every choice of one number below each of the bounds.
fn every(bounds: &[u32]) -> Vec<Vec<u32>> {
    bounds.iter().fold(vec![vec![]], |choices, &bound| {
        let longer = |choice: &Vec<u32>, x| [&choice[..], &[x]].concat();
        let all = choices.iter();
        all.flat_map(|choice| (0..bound).map(move |x| longer(choice, x)))
            .collect()
    })
}

/// A secret word of q, or a signed number within ±(q − 1) in two's complement.
fn secret(q: u32, signed: bool, x: u32) -> Vec<u32> {
    vec![if signed { x.wrapping_sub(q - 1) } else { x }]
}

/// Every secret, mask word, plaintext and error of dimension 1.
fn encryptions(report: &mut Report, q: u32, signed: bool) {
    let signs = 2 * q - 1;
    for choice in every(&[if signed { signs } else { q }, q, q, signs]) {
        let call = Call {
            kind: [Kind::EncryptEncoded, Kind::EncryptEncodedSigned][signed as usize],
            modulus: q,
            n: 1,
            bound: q - 1,
            secret: secret(q, signed, choice[0]),
            masks: vec![choice[1]],
            input: vec![choice[2]],
            errors: vec![choice[3] as i32 - q as i32 + 1],
            out_len: 2,
            ..Call::default()
        };
        report.add(&call, compare(&call));
    }
}

/// Every word of an error and one past the last, with every E.
fn error_words(report: &mut Report, q: u32) {
    for choice in every(&[q, q + 1]) {
        let call = Call {
            kind: Kind::EncryptEncoded,
            modulus: q,
            n: 1,
            bound: choice[0],
            secret: vec![1],
            masks: vec![2],
            input: vec![3],
            error_words: true,
            errors: vec![choice[1] as i32],
            out_len: 2,
            ..Call::default()
        };
        report.add(&call, compare(&call));
        let public = Call {
            kind: Kind::PublicKey,
            input: vec![],
            ..call
        };
        report.add(&public, compare(&public));
    }
}

/// Every secret and ciphertext of dimension 1.
fn phases(report: &mut Report, q: u32, signed: bool) {
    for choice in every(&[if signed { 2 * q - 1 } else { q }, q, q]) {
        let call = Call {
            kind: [Kind::Phase, Kind::PhaseSigned][signed as usize],
            modulus: q,
            n: 1,
            secret: secret(q, signed, choice[0]),
            input: choice[1..].to_vec(),
            ..Call::default()
        };
        report.add(&call, compare(&call));
    }
}

/// Every secret, mask and two plaintexts of dimension 2, packed; and every phase.
fn packed(report: &mut Report, q: u32) {
    for choice in every(&[q, q, q, q, q, q]) {
        let pack = Call {
            kind: Kind::PackEncoded,
            modulus: q,
            n: 2,
            bound: 1,
            secret: choice[..2].to_vec(),
            masks: choice[2..4].to_vec(),
            errors: vec![1, -1],
            input: choice[4..].to_vec(),
            out_len: 4,
            ..Call::default()
        };
        report.add(&pack, compare(&pack));
        let open = Call {
            kind: Kind::PhasePacked,
            input: choice[2..].to_vec(),
            masks: vec![],
            errors: vec![],
            out_len: 2,
            ..pack
        };
        report.add(&open, compare(&open));
    }
}

/// Every sample of a full packed ciphertext of dimension 2.
fn samples(report: &mut Report, q: u32) {
    for choice in every(&[q, q, q, q, 2]) {
        let call = Call {
            kind: Kind::Extract,
            modulus: q,
            n: 2,
            input: choice[..4].to_vec(),
            tags: vec![(0, choice[0])],
            index: choice[4] as usize,
            out_len: 3,
            ..Call::default()
        };
        report.add(&call, compare(&call));
    }
}

/// Every public key of one row, with every plaintext, coefficient and errors of −1, 0, 1.
fn public(report: &mut Report, q: u32) {
    let sign = |x: u32| x as i32 - 1;
    for choice in every(&[q, q, q, 3, 3, 3]) {
        let call = Call {
            kind: Kind::PublicEncoded,
            modulus: q,
            n: 1,
            bound: 1,
            key: choice[..2].to_vec(),
            input: vec![choice[2]],
            errors: vec![sign(choice[3]), sign(choice[4])],
            coefficients: vec![sign(choice[5])],
            out_len: 2,
            ..Call::default()
        };
        report.add(&call, compare(&call));
    }
}

/// Every key of one entry: both secrets, the mask, and errors of −1, 0, 1.
fn keys(report: &mut Report, q: u32) {
    for choice in every(&[q, q, q, 3]) {
        let call = Call {
            kind: Kind::Generate,
            modulus: q,
            base_log: 2,
            levels: 1,
            n: 1,
            m: 1,
            bound: 1,
            secret: vec![choice[0]],
            output_key: vec![choice[1]],
            masks: vec![choice[2]],
            errors: vec![choice[3] as i32 - 1],
            out_len: 2,
            ..Call::default()
        };
        report.add(&call, compare(&call));
    }
}

pub fn everything(report: &mut Report, seed: u64) {
    let mut draw = Draw(seed);
    for q in 4..=200 {
        digits(report, q);
    }
    for q in 4..=64 {
        for t in 2..q {
            codec(report, q, t);
        }
    }
    for q in 4..=17 {
        switches(report, &mut draw, q);
        keys(report, q);
        error_words(report, q);
    }
    for q in 4..=8 {
        for signed in [false, true] {
            encryptions(report, q, signed);
            phases(report, q, signed);
        }
        public(report, q);
        samples(report, q);
    }
    for q in 4..=5 {
        packed(report, q);
    }
}
