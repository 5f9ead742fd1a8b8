//! Random calls that document 01 accepts.

use supplied::call::{Call, Kind};

/// splitmix64: small, and the same everywhere.
pub struct Draw(pub u64);

impl Draw {
    fn next(&mut self) -> u64 {
        self.0 = self.0.wrapping_add(0x9e37_79b9_7f4a_7c15);
        let mut z = self.0;
        z = (z ^ (z >> 30)).wrapping_mul(0xbf58_476d_1ce4_e5b9);
        z = (z ^ (z >> 27)).wrapping_mul(0x94d0_49bb_1331_11eb);
        z ^ (z >> 31)
    }
    /// From 0 to bound − 1.
    pub fn below(&mut self, bound: u64) -> u64 {
        ((self.next() as u128 * bound as u128) >> 64) as u64
    }
    pub fn between(&mut self, low: u64, high: u64) -> u64 {
        low + self.below(high - low + 1)
    }
    pub fn choose<T: Copy>(&mut self, items: &[T]) -> T {
        items[self.below(items.len() as u64) as usize]
    }
    pub fn one_in(&mut self, count: u64) -> bool {
        self.below(count) == 0
    }
}

const PRIMES: [u32; 8] = [
    17,
    97,
    257,
    12289,
    65537,
    1_000_003,
    2_147_483_647,
    4_294_967_291,
];
/// The largest error bound.
pub const LIMIT: u64 = 1 << 20;

fn modulus(draw: &mut Draw) -> u32 {
    match draw.below(8) {
        0..3 => 0,
        3 => 1 << draw.between(2, 31),
        4 => draw.between(4, 64) as u32,
        5 => draw.choose(&PRIMES),
        6 => {
            let near = draw.choose(&[1 << 16, 1 << 31, u32::MAX as u64 - 3]);
            (near + draw.below(7) - 3) as u32
        }
        _ => {
            let bits = draw.between(3, 32);
            draw.between(4, (1 << bits) - 1) as u32
        }
    }
}

/// A public key has n rows.
pub fn is_square(kind: Kind) -> bool {
    use Kind::*;
    matches!(
        kind,
        PublicKey | PublicKeySigned | PublicEncoded | PublicMessage
    )
}

/// Mostly small; now and then larger, and rarely in the hundreds.
fn dimension(draw: &mut Draw, kind: Kind) -> usize {
    let n = match draw.below(2000) {
        0 if !is_square(kind) => draw.between(600, 900),
        0..50 => draw.between(13, 64),
        50..250 => 1,
        _ => draw.between(1, 12),
    };
    n as usize
}

fn put_basis(draw: &mut Draw, call: &mut Call) {
    let widest = (63 - call.q().leading_zeros()).min(31) as u64;
    call.base_log = draw.between(2, widest) as u32;
    if draw.one_in(2) {
        call.base_log = draw.between(2, widest.min(8)) as u32;
    }
    let full = call.full_levels();
    let any = draw.between(1, full as u64) as u32;
    call.levels = draw.choose(&[0, 0, 1, full, any]);
}

/// T of document 01: words about it are edges.
fn threshold(call: &Call) -> u64 {
    let whole = call.level_count() as u32 * call.base_log;
    let dropped = call.value_bits() - whole;
    let base = 1u128 << call.base_log;
    let p = (base / 2 - 1) * ((1u128 << whole) - 1) / (base - 1);
    let half = (1u128 << dropped) / 2;
    ((p << dropped) + half.max(1)) as u64
}

fn word(draw: &mut Draw, call: &Call) -> u32 {
    let q = call.q();
    let word = match draw.below(8) {
        0 => 0,
        1 => q - 1,
        2 if call.kind.has_basis() => (threshold(call) + draw.below(3) + q - 1) % q,
        3 => q / 2 + draw.below(2),
        _ => draw.below(q),
    };
    word.min(q - 1) as u32
}

fn words(draw: &mut Draw, call: &Call, count: usize) -> Vec<u32> {
    (0..count).map(|_| word(draw, call)).collect()
}

/// Within ±most, edges among them.
fn signed(draw: &mut Draw, most: i64) -> i32 {
    let any = draw.below(2 * most as u64 + 1) as i64 - most;
    let drawn = draw.choose(&[any, any, most, -most, 0]);
    drawn.clamp(i32::MIN as i64, i32::MAX as i64) as i32
}

fn secret(draw: &mut Draw, call: &Call) -> Vec<u32> {
    if !call.kind.is_signed() {
        return words(draw, call, call.n);
    }
    let most = (call.q() - 1).min(1 << 31) as i64;
    let short = draw.one_in(2);
    let most = if short { most.min(1) } else { most };
    (0..call.n).map(|_| signed(draw, most) as u32).collect()
}

/// A number within ±E, or a word that counts as one: that of such a number, or one about q/2.
fn error(draw: &mut Draw, call: &Call) -> i32 {
    let (q, most) = (call.q() as i64, call.bound as i64);
    let any = signed(draw, most);
    if !call.error_words {
        return any;
    }
    let half = q / 2 + draw.below(2) as i64;
    if draw.one_in(3) && half <= most && q - half <= most {
        half as i32
    } else {
        (any as i64).rem_euclid(q) as u32 as i32
    }
}

fn errors(draw: &mut Draw, call: &Call, count: usize) -> Vec<i32> {
    (0..count).map(|_| error(draw, call)).collect()
}

fn messages(draw: &mut Draw, call: &Call, count: usize) -> Vec<u32> {
    let t = call.t as u64;
    let one = |draw: &mut Draw| {
        let any = draw.below(t);
        draw.choose(&[any, any, 0, t - 1, t / 2]) as u32
    };
    (0..count).map(|_| one(draw)).collect()
}

fn plaintexts(draw: &mut Draw, call: &Call, count: usize) -> Vec<u32> {
    if call.kind.takes_messages() {
        messages(draw, call, count)
    } else {
        words(draw, call, count)
    }
}

/// Rows of a batch: none, and about a tile of eight.
fn rows(draw: &mut Draw, call: &Call) -> usize {
    let count = draw.choose(&[0, 1, 2, 3, 7, 8, 9, 17]);
    if call.n > 64 || call.m > 64 {
        count.min(2)
    } else {
        count
    }
}

/// The plain numbers of an accepted call.
fn parameters(draw: &mut Draw, kind: Kind, (n, m): (usize, usize)) -> Call {
    let mut call = Call {
        kind,
        modulus: modulus(draw),
        n,
        m,
        centered: draw.choose(&[0, 0, 0, 1, 1, 2, 256, u32::MAX]),
        ..Call::default()
    };
    if kind.has_basis() {
        put_basis(draw, &mut call);
    }
    let most = call.q() - 1;
    let any = draw.between(2, most);
    let small = draw.between(2, most.min(17));
    let middle = draw.between(2, most.min(1 << 20));
    call.t = draw.choose(&[any, middle, small, small, 2, most]) as u32;
    let most = (call.q() - 1).min(LIMIT);
    let any = draw.below(most + 1);
    let half = (call.q() / 2).min(most);
    call.bound = draw.choose(&[any, 0, 1.min(most), 3.min(most), half, most]) as u32;
    call.error_words = kind.has_bound() && draw.one_in(2);
    call
}

/// A call of a kind with these dimensions: accepted where they are.
pub fn sized(draw: &mut Draw, kind: Kind, dimensions: (usize, usize)) -> Call {
    let mut call = parameters(draw, kind, dimensions);
    match kind {
        Kind::Basis => call.out_len = 6,
        Kind::Reading | Kind::DigitsSingle | Kind::Digits => fill_digits(draw, &mut call),
        Kind::Encode | Kind::Decode => call.input = plaintexts(draw, &call, 1),
        Kind::EncodeSlice | Kind::DecodeSlice => {
            let count = draw.below(20) as usize;
            call.input = plaintexts(draw, &call, count);
            call.out_len = count;
        }
        Kind::PublicKey | Kind::PublicKeySigned | Kind::PublicEncoded | Kind::PublicMessage => {
            fill_public(draw, &mut call)
        }
        Kind::Extract => fill_extract(draw, &mut call),
        _ if kind.is_switching() => fill_switching(draw, &mut call),
        _ if kind.opens() => fill_opening(draw, &mut call),
        _ => fill_encryption(draw, &mut call),
    }
    call
}

fn fill_digits(draw: &mut Draw, call: &mut Call) {
    let count = match call.kind {
        Kind::Digits => draw.below(20) as usize,
        _ => 1,
    };
    call.input = words(draw, call, count);
    call.out_len = match call.kind {
        Kind::Reading => 2,
        _ => call.level_count() * count,
    };
}

fn fill_encryption(draw: &mut Draw, call: &mut Call) {
    let n = call.n;
    let (count, rows, width) = match call.kind {
        Kind::EncryptMessageBatch => {
            let rows = rows(draw, call);
            (rows, rows, n + 1)
        }
        Kind::PackEncoded | Kind::PackMessage => {
            let count = draw.below(n as u64 + 1) as usize;
            (draw.choose(&[count, count, n]), 1, 0)
        }
        _ => (1, 1, n + 1),
    };
    call.secret = secret(draw, call);
    call.masks = words(draw, call, n * rows);
    call.errors = errors(draw, call, count);
    call.input = plaintexts(draw, call, count);
    call.out_len = if width == 0 { n + count } else { rows * width };
}

fn fill_opening(draw: &mut Draw, call: &mut Call) {
    let n = call.n;
    call.secret = secret(draw, call);
    let (length, out) = match call.kind {
        Kind::PhaseBatch | Kind::MessageBatch => {
            let rows = rows(draw, call);
            (rows * (n + 1), rows)
        }
        Kind::PhasePacked | Kind::MessagePacked => {
            let count = draw.below(n as u64 + 1) as usize;
            (n + count, count)
        }
        _ => (n + 1, 0),
    };
    call.input = words(draw, call, length);
    call.out_len = out;
}

fn fill_public(draw: &mut Draw, call: &mut Call) {
    let n = call.n;
    if matches!(call.kind, Kind::PublicKey | Kind::PublicKeySigned) {
        call.secret = secret(draw, call);
        call.masks = words(draw, call, n * n);
        call.errors = errors(draw, call, n);
        call.out_len = n * (n + 1);
        return;
    }
    call.key = words(draw, call, n * (n + 1));
    call.errors = errors(draw, call, n + 1);
    call.coefficients = (0..n).map(|_| signed(draw, 1)).collect();
    call.input = plaintexts(draw, call, 1);
    call.out_len = n + 1;
}

/// A tally and a c, the largest among them.
fn tag(draw: &mut Draw) -> (u64, u32) {
    let (tally, c) = (draw.below((1 << 32) + 1), draw.below(65537) as u32);
    (
        draw.choose(&[tally, 0, 1 << 32, u64::MAX]),
        draw.choose(&[c, 0, 1, 1, 2, 65535, 65536]),
    )
}

fn fill_extract(draw: &mut Draw, call: &mut Call) {
    let count = draw.between(1, call.n.max(1) as u64) as usize;
    call.input = words(draw, call, call.n + count);
    call.tags = vec![tag(draw)];
    call.index = draw.below(count as u64) as usize;
    call.out_len = call.n + 1;
}

fn fill_switching(draw: &mut Draw, call: &mut Call) {
    let (n, m, entries) = (call.n, call.m, call.n * call.level_count());
    if matches!(call.kind, Kind::Generate | Kind::GenerateSigned) {
        call.secret = secret(draw, call);
        call.output_key = words(draw, call, m);
        call.masks = words(draw, call, entries * m);
        call.errors = errors(draw, call, entries);
        call.out_len = entries * (m + 1);
        return;
    }
    let rows = match call.kind {
        Kind::Switch => 1,
        _ => rows(draw, call),
    };
    call.key = words(draw, call, entries * (m + 1));
    call.input = words(draw, call, rows * (n + 1));
    call.tags = (0..rows).map(|_| tag(draw)).collect();
    call.out_len = rows * (m + 1);
}

pub fn accepted(draw: &mut Draw, kind: Kind) -> Call {
    let (n, m) = (dimension(draw, kind), dimension(draw, kind));
    let m = if n > 64 { m.min(4) } else { m };
    sized(draw, kind, (n, m))
}
