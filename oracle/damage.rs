//! Random calls that document 01 refuses: damaged in one to three places.

use crate::checks::applying;
use crate::draw::{Draw, LIMIT, accepted, is_square, sized};
use supplied::call::{Call, Kind};

/// Every place that a damage can take.
const PLACES: u64 = 21;

fn damage(draw: &mut Draw, call: &mut Call) {
    let q = call.q();
    let dimensions = [0, 0, 2049, 4096, 65537, (1 << 32) + 1, usize::MAX];
    match draw.below(PLACES) {
        0 => call.modulus = draw.between(1, 3) as u32,
        1 => call.base_log = draw.choose(&[0, 1, 32, 33, 64, u32::MAX]),
        2 => call.base_log = draw.between(2, 31) as u32,
        3 => call.levels = draw.choose(&[call.full_levels() + 1, u32::MAX]),
        4 => call.n = draw.choose(&dimensions),
        5 => call.m = draw.choose(&dimensions),
        6 => call.t = draw.choose(&[0, 1, u32::MAX]),
        7 => call.t = (q + draw.below(2)).min(u32::MAX as u64) as u32,
        8 | 9 => damage_length(draw, call),
        10 => call.out_len = draw.choose(&[call.out_len + 1, call.out_len.saturating_sub(1), 0]),
        11 => {
            call.bound = draw.choose(&[LIMIT as u32 + 1, u32::MAX, q.min(u32::MAX as u64) as u32])
        }
        12..15 => damage_word(draw, call),
        15 => damage_error(draw, call),
        16 => call.index = draw.choose(&[call.input.len().saturating_sub(call.n), usize::MAX]),
        17 => damage_message(draw, call),
        18 | 19 => damage_tags(draw, call),
        _ => damage_count(call),
    }
}

/// The runs of words that a call takes.
fn runs(call: &mut Call) -> Vec<&mut Vec<u32>> {
    let kind = call.kind;
    let runs = [
        (kind.has_secret(), &mut call.secret),
        (
            kind.is_switching() && kind.has_bound(),
            &mut call.output_key,
        ),
        (kind.has_key(), &mut call.key),
        (kind.has_bound() && !kind.has_key(), &mut call.masks),
        (kind.takes_a_run(), &mut call.input),
    ];
    runs.into_iter()
        .filter(|row| row.0)
        .map(|row| row.1)
        .collect()
}

/// One too many, one too few, many more, none.
fn damage_length(draw: &mut Draw, call: &mut Call) {
    let more = 2 * call.n.min(64) + 1;
    let mut runs = runs(call);
    if runs.is_empty() || draw.one_in(4) {
        return damage_lent(draw, call);
    }
    let chosen = draw.below(runs.len() as u64) as usize;
    let run = &mut runs[chosen];
    match draw.below(4) {
        0 => run.push(0),
        1 => run.truncate(run.len().saturating_sub(1)),
        2 => run.resize(more.max(run.len()), 0),
        _ => run.clear(),
    }
}

fn damage_lent(draw: &mut Draw, call: &mut Call) {
    let run = match draw.below(2) {
        0 if call.kind.has_bound() => &mut call.errors,
        _ if call.kind.has_bound() && call.kind.has_key() => &mut call.coefficients,
        _ => return,
    };
    match draw.below(2) {
        0 => run.push(0),
        _ => run.truncate(run.len().saturating_sub(1)),
    }
}

fn damage_word(draw: &mut Draw, call: &mut Call) {
    let q = call.q();
    let bad = draw.between(q.min(u32::MAX as u64), u32::MAX as u64) as u32;
    let bad = draw.choose(&[bad, q.min(u32::MAX as u64) as u32, u32::MAX]);
    let (signed, messages) = (call.kind.is_signed(), call.kind.takes_messages());
    let run = match draw.below(5) {
        0 if signed => return damage_number(draw, call),
        0 => &mut call.secret,
        1 => &mut call.output_key,
        2 => &mut call.key,
        3 => &mut call.masks,
        _ if messages => return,
        _ => &mut call.input,
    };
    if !run.is_empty() {
        let place = draw.below(run.len() as u64) as usize;
        run[place] = bad;
    }
}

/// A signed key number of q or more in absolute value.
fn damage_number(draw: &mut Draw, call: &mut Call) {
    let q = call.q().min(1 << 31) as i64;
    let bad = draw.choose(&[q.min(i32::MAX as i64), -q, i32::MIN as i64]);
    if !call.secret.is_empty() {
        let place = draw.below(call.secret.len() as u64) as usize;
        call.secret[place] = bad as i32 as u32;
    }
}

/// A word of q or more, or one that counts as a number outside ±E, unless E is as large as q/2.
fn damage_error_word(draw: &mut Draw, call: &mut Call) {
    let (q, bound) = (call.q(), call.bound as u64);
    let outside = [bound + 1, q.saturating_sub(bound + 1), q / 2, q / 2 + 1];
    let bad = draw.choose(&[
        q,
        q + 1,
        u32::MAX as u64,
        outside[0],
        outside[1],
        outside[2],
        outside[3],
    ]);
    if !call.errors.is_empty() {
        let place = draw.below(call.errors.len() as u64) as usize;
        call.errors[place] = bad.min(u32::MAX as u64) as u32 as i32;
    }
}

fn damage_error(draw: &mut Draw, call: &mut Call) {
    if call.error_words && draw.one_in(2) {
        return damage_error_word(draw, call);
    }
    let (run, limit) = match draw.below(2) {
        0 if !call.error_words => (&mut call.errors, call.bound as i64 + 1),
        _ => (&mut call.coefficients, 2),
    };
    let limit = limit.min(i32::MAX as i64) as i32;
    if !run.is_empty() {
        let place = draw.below(run.len() as u64) as usize;
        run[place] = draw.choose(&[limit, -limit, i32::MIN, i32::MAX]);
    }
}

fn damage_message(draw: &mut Draw, call: &mut Call) {
    if call.kind.takes_messages() && !call.input.is_empty() {
        let place = draw.below(call.input.len() as u64) as usize;
        call.input[place] = draw.choose(&[call.t, call.t.saturating_add(1), u32::MAX]);
    }
}

/// A tag too many or too few, where they have a number; or one with a tally or a c above its limit.
fn damage_tags(draw: &mut Draw, call: &mut Call) {
    match draw.below(4) {
        0 if call.kind == Kind::SwitchBatch => call.tags.push((0, 1)),
        1 if call.kind == Kind::SwitchBatch => {
            call.tags.pop();
        }
        _ if call.tags.is_empty() => {}
        2 => {
            let place = draw.below(call.tags.len() as u64) as usize;
            call.tags[place].0 = draw.choose(&[(1 << 32) + 1, 1 << 63, u64::MAX - 1]);
        }
        _ => {
            let place = draw.below(call.tags.len() as u64) as usize;
            call.tags[place].1 = draw.choose(&[65537, 1 << 31, u32::MAX]);
        }
    }
}

/// One body more than the n of a packed ciphertext, with all lengths as they have to be.
fn damage_count(call: &mut Call) {
    let n = call.n.min(2048);
    match call.kind {
        Kind::PackEncoded | Kind::PackMessage => {
            call.input.resize(n + 1, 0);
            call.errors.resize(n + 1, 0);
            call.out_len = 2 * n + 1;
        }
        Kind::PhasePacked | Kind::MessagePacked => {
            call.input.resize(2 * n + 1, 0);
            call.out_len = n + 1;
        }
        _ => {}
    }
}

/// Words and errors of 0: for the smallest input of each refusal.
fn plain(mut call: Call) -> Call {
    for run in runs(&mut call) {
        run.fill(0);
    }
    call.errors.fill(0);
    call.coefficients.fill(0);
    call.tags.fill((0, 1));
    call
}

/// Dimensions past their limits, with all lengths as they have to be.
fn beyond(draw: &mut Draw, kind: Kind) -> Call {
    let other = if is_square(kind) || !draw.one_in(50) {
        0
    } else {
        2049
    };
    let dimensions = match draw.below(2) {
        0 if kind.is_switching() => (1, other),
        _ => (other, 1),
    };
    plain(sized(draw, kind, dimensions))
}

fn tiny(draw: &mut Draw, kind: Kind) -> Call {
    loop {
        let call = sized(draw, kind, (1, 1));
        if (4..20).contains(&call.modulus) {
            return plain(call);
        }
    }
}

/// A call that 01 refuses.
pub fn refused(draw: &mut Draw, kind: Kind) -> Call {
    loop {
        let mut call = match draw.below(40) {
            0 if kind.has_dimension() => beyond(draw, kind),
            1..6 => tiny(draw, kind),
            _ => accepted(draw, kind),
        };
        let count = draw.choose(&[1, 1, 1, 2, 3]);
        for _ in 0..count {
            damage(draw, &mut call);
        }
        if !applying(&call).is_empty() {
            return call;
        }
    }
}
