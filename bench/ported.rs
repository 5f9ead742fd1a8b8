//! The batch switch of primus-fhe for 32-bit words, to be measured beside the proved one.
//!
//! Ported, loop for loop: `key_switch_batch_kernel`, `key_switch_kernel` and `accumulate_entry`
//! (primus_lwe/src/key_switch/batch.rs and mod.rs), `try_new`, `init_value_carry` and `wrap_threshold`
//! (primus_decompose/src/primitive/basis.rs), `decompose` (common.rs); generic words became `u32`.
//!
//! Ours: the rings below. primus_reduce, where upstream's reductions stand, was not supplied.

/// What the loops ask of primus_reduce's `RingContext`. What stands here in full serves any q up to 2^31.
pub trait Ring: Copy {
    fn q(self) -> u32;
    fn add_mul_scalar_slice_assign(self, out: &mut [u32], entry: &[u32], scalar: u32);

    fn neg(self, a: u32) -> u32 {
        if a == 0 { 0 } else { self.q() - a }
    }
    fn add_slice_assign(self, out: &mut [u32], entry: &[u32]) {
        out.iter_mut()
            .zip(entry)
            .for_each(|(o, &e)| *o = subtract_once(*o + e, self.q()));
    }
    fn sub_slice_assign(self, out: &mut [u32], entry: &[u32]) {
        out.iter_mut()
            .zip(entry)
            .for_each(|(o, &e)| *o = subtract_once(*o + (self.q() - e), self.q()));
    }
    fn neg_slice_assign(self, out: &mut [u32]) {
        out.iter_mut().for_each(|o| *o = self.neg(*o));
    }
}

#[inline]
fn subtract_once(a: u32, q: u32) -> u32 {
    if a >= q { a - q } else { a }
}

/// q = 2^32: words wrap.
#[derive(Clone, Copy)]
pub struct Native;

impl Ring for Native {
    fn q(self) -> u32 {
        unreachable!("2^32 is no word")
    }
    fn neg(self, a: u32) -> u32 {
        a.wrapping_neg()
    }
    fn add_slice_assign(self, out: &mut [u32], entry: &[u32]) {
        out.iter_mut()
            .zip(entry)
            .for_each(|(o, &e)| *o = o.wrapping_add(e));
    }
    fn sub_slice_assign(self, out: &mut [u32], entry: &[u32]) {
        out.iter_mut()
            .zip(entry)
            .for_each(|(o, &e)| *o = o.wrapping_sub(e));
    }
    fn add_mul_scalar_slice_assign(self, out: &mut [u32], entry: &[u32], scalar: u32) {
        out.iter_mut()
            .zip(entry)
            .for_each(|(o, &e)| *o = o.wrapping_add(e.wrapping_mul(scalar)));
    }
}

/// q a power of two: words wrap and keep their low bits.
#[derive(Clone, Copy)]
pub struct LowBits {
    mask: u32,
}

impl LowBits {
    pub fn new(q: u32) -> Self {
        assert!(q.is_power_of_two());
        Self { mask: q - 1 }
    }
}

impl Ring for LowBits {
    fn q(self) -> u32 {
        self.mask + 1
    }
    fn neg(self, a: u32) -> u32 {
        a.wrapping_neg() & self.mask
    }
    fn add_slice_assign(self, out: &mut [u32], entry: &[u32]) {
        out.iter_mut()
            .zip(entry)
            .for_each(|(o, &e)| *o = o.wrapping_add(e) & self.mask);
    }
    fn sub_slice_assign(self, out: &mut [u32], entry: &[u32]) {
        out.iter_mut()
            .zip(entry)
            .for_each(|(o, &e)| *o = o.wrapping_sub(e) & self.mask);
    }
    fn add_mul_scalar_slice_assign(self, out: &mut [u32], entry: &[u32], scalar: u32) {
        out.iter_mut()
            .zip(entry)
            .for_each(|(o, &e)| *o = o.wrapping_add(e.wrapping_mul(scalar)) & self.mask);
    }
}

/// Barrett in words, as code over any width `T` writes it: product and ⌊2^64 / q⌋ are two words each.
#[derive(Clone, Copy)]
pub struct Barrett {
    q: u32,
    ratio: [u32; 2],
}

impl Barrett {
    pub fn new(q: u32) -> Self {
        let ratio = WideBarrett::new(q).ratio;
        Self {
            q,
            ratio: [ratio as u32, (ratio >> 32) as u32],
        }
    }
    #[inline]
    fn reduce(self, low: u32, high: u32) -> u32 {
        let wide = |a: u32, b: u32| a as u64 * b as u64;
        let b = wide(low, self.ratio[1]) + (wide(low, self.ratio[0]) >> 32);
        let c = wide(high, self.ratio[0]);
        let (_, carry) = (b as u32).overflowing_add(c as u32);
        let quotient = high
            .wrapping_mul(self.ratio[1])
            .wrapping_add((b >> 32) as u32)
            .wrapping_add((c >> 32) as u32)
            .wrapping_add(carry as u32);
        subtract_once(low.wrapping_sub(quotient.wrapping_mul(self.q)), self.q)
    }
}

impl Ring for Barrett {
    fn q(self) -> u32 {
        self.q
    }
    fn add_mul_scalar_slice_assign(self, out: &mut [u32], entry: &[u32], scalar: u32) {
        out.iter_mut().zip(entry).for_each(|(o, &e)| {
            let x = e as u64 * scalar as u64 + *o as u64;
            *o = self.reduce(x as u32, (x >> 32) as u32);
        });
    }
}

/// Barrett by one product of 128 bits, which 32-bit words allow.
#[derive(Clone, Copy)]
pub struct WideBarrett {
    q: u32,
    ratio: u64,
}

impl WideBarrett {
    pub fn new(q: u32) -> Self {
        assert!((2..=1 << 31).contains(&q));
        Self {
            q,
            ratio: ((1u128 << 64) / q as u128) as u64,
        }
    }
    #[inline]
    fn reduce(self, x: u64) -> u32 {
        let quotient = ((x as u128 * self.ratio as u128) >> 64) as u64;
        subtract_once(
            x.wrapping_sub(quotient.wrapping_mul(self.q as u64)) as u32,
            self.q,
        )
    }
}

impl Ring for WideBarrett {
    fn q(self) -> u32 {
        self.q
    }
    fn add_mul_scalar_slice_assign(self, out: &mut [u32], entry: &[u32], scalar: u32) {
        out.iter_mut()
            .zip(entry)
            .for_each(|(o, &e)| *o = self.reduce(e as u64 * scalar as u64 + *o as u64));
    }
}

/// Any q at all, by `%` on every word.
#[derive(Clone, Copy)]
pub struct Remainder {
    pub q: u32,
}

impl Remainder {
    #[inline]
    fn reduce(self, x: u64) -> u32 {
        (x % self.q as u64) as u32
    }
}

impl Ring for Remainder {
    fn q(self) -> u32 {
        self.q
    }
    fn add_slice_assign(self, out: &mut [u32], entry: &[u32]) {
        out.iter_mut()
            .zip(entry)
            .for_each(|(o, &e)| *o = self.reduce(*o as u64 + e as u64));
    }
    fn sub_slice_assign(self, out: &mut [u32], entry: &[u32]) {
        out.iter_mut()
            .zip(entry)
            .for_each(|(o, &e)| *o = self.reduce(*o as u64 + (self.q - e) as u64));
    }
    fn add_mul_scalar_slice_assign(self, out: &mut [u32], entry: &[u32], scalar: u32) {
        out.iter_mut()
            .zip(entry)
            .for_each(|(o, &e)| *o = self.reduce(e as u64 * scalar as u64 + *o as u64));
    }
}

#[derive(Clone, Copy)]
enum ValueCarryInitMode {
    AdjustAndCarry { threshold: u32, add: u32, mask: u32 },
    CarryOnly { mask: u32 },
    AdjustOnly { threshold: u32, add: u32 },
    Plain,
}

#[derive(Clone, Copy)]
struct ValueMask {
    mask: u32,
    shr_bits: u32,
}

struct OnceSignedDecomposer {
    value_mask: ValueMask,
    carry_mask: u32,
    basis_minus_one: u32,
    modulus_minus_basis: u32,
}

impl OnceSignedDecomposer {
    #[inline]
    fn decompose(&self, value: u32, carry: bool) -> (u32, bool) {
        let mut temp = ((value >> self.value_mask.shr_bits) & self.value_mask.mask) + carry as u32;
        let next_carry = temp & self.carry_mask != 0;
        if next_carry {
            if temp > self.basis_minus_one {
                temp = 0;
            } else {
                temp += self.modulus_minus_basis;
            }
        }
        (temp, next_carry)
    }
}

pub struct ApproxSignedBasis {
    basis_minus_one: u32,
    modulus_minus_basis: u32,
    value_bits: u32,
    level_count: usize,
    carry_mask: u32,
    value_carry_init_mode: ValueCarryInitMode,
    value_masks: Vec<ValueMask>,
}

impl ApproxSignedBasis {
    /// `modulus` 0 is native, `levels` 0 is left open, as in the C call; the caller admits the rest.
    pub fn new(modulus: u32, log_basis: u32, levels: usize) -> Self {
        let basis = 1u32 << log_basis;
        let basis_minus_one = basis - 1;
        let (power_of_two, value_bits, modulus_minus_basis) = match modulus {
            0 => (true, 32, u32::MAX - basis_minus_one),
            q if q.is_power_of_two() => (true, q.trailing_zeros(), q - basis),
            q => (false, 32 - q.leading_zeros(), q - basis),
        };
        let full = (value_bits / log_basis) as usize;
        let level_count = if levels == 0 { full } else { levels };
        assert!(level_count <= full);
        let drop_bits = value_bits - level_count as u32 * log_basis;
        let init_carry_mask = drop_bits.checked_sub(1).map(|bit| 1u32 << bit);
        let value_carry_init_mode = if power_of_two {
            match init_carry_mask {
                Some(mask) => ValueCarryInitMode::CarryOnly { mask },
                None => ValueCarryInitMode::Plain,
            }
        } else {
            let threshold = wrap_threshold(log_basis, level_count, drop_bits);
            let add = (u32::MAX >> (32 - value_bits)) - (modulus - 1);
            match init_carry_mask {
                Some(mask) => ValueCarryInitMode::AdjustAndCarry {
                    threshold,
                    add,
                    mask,
                },
                None => ValueCarryInitMode::AdjustOnly { threshold, add },
            }
        };
        let value_masks = (0..level_count)
            .map(|level| ValueMask {
                mask: basis_minus_one,
                shr_bits: drop_bits + level as u32 * log_basis,
            })
            .collect();
        Self {
            basis_minus_one,
            modulus_minus_basis,
            value_bits,
            level_count,
            carry_mask: (1 << log_basis) | (1 << (log_basis - 1)),
            value_carry_init_mode,
            value_masks,
        }
    }

    pub fn value_bits(&self) -> u32 {
        self.value_bits
    }

    pub fn level_count(&self) -> usize {
        self.level_count
    }

    #[inline]
    fn decomposer_iter(&self) -> impl Iterator<Item = OnceSignedDecomposer> + '_ {
        let (carry_mask, basis_minus_one, modulus_minus_basis) = (
            self.carry_mask,
            self.basis_minus_one,
            self.modulus_minus_basis,
        );
        self.value_masks
            .iter()
            .map(move |&value_mask| OnceSignedDecomposer {
                value_mask,
                carry_mask,
                basis_minus_one,
                modulus_minus_basis,
            })
    }

    #[inline]
    fn init_value_carry(&self, value: u32) -> (u32, bool) {
        match self.value_carry_init_mode {
            ValueCarryInitMode::AdjustAndCarry {
                threshold,
                add,
                mask,
            } => {
                let adjust = if value >= threshold {
                    value + add
                } else {
                    value
                };
                (adjust, adjust & mask != 0)
            }
            ValueCarryInitMode::AdjustOnly { threshold, add } => {
                let adjust = if value >= threshold {
                    value + add
                } else {
                    value
                };
                (adjust, false)
            }
            ValueCarryInitMode::CarryOnly { mask } => (value, value & mask != 0),
            ValueCarryInitMode::Plain => (value, false),
        }
    }
}

fn wrap_threshold(log_basis: u32, levels: usize, drop_bits: u32) -> u32 {
    let positive_digit = (1u32 << (log_basis - 1)) - 1;
    let mut positive_limit = 0u32;
    for _ in 0..levels {
        positive_limit = (positive_limit << log_basis) | positive_digit;
    }
    let rounding_offset = if drop_bits == 0 {
        1
    } else {
        1u32 << (drop_bits - 1)
    };
    (positive_limit << drop_bits) + rounding_offset
}

const TILE: usize = 8;

/// `LweKeySwitchingKey`, its words lent.
pub struct KeySwitchingKey<'a> {
    pub data: &'a [u32],
    pub input_dimension: usize,
    pub output_dimension: usize,
    pub basis: ApproxSignedBasis,
}

impl KeySwitchingKey<'_> {
    /// `key_switch_batch_to`, with its length checks.
    #[inline(never)]
    pub fn key_switch_batch_to<const NATIVE: bool, R: Ring>(
        &self,
        input: &[u32],
        output: &mut [u32],
        modulus: R,
    ) {
        let input_len = self.input_dimension + 1;
        assert!(
            input.len().is_multiple_of(input_len),
            "incomplete LWE batch ciphertext"
        );
        let count = input.len() / input_len;
        assert_eq!(
            Some(output.len()),
            (self.output_dimension + 1).checked_mul(count),
            "LWE batch length mismatch"
        );
        self.key_switch_batch_kernel::<NATIVE, R>(input, output, modulus);
    }

    fn key_switch_batch_kernel<const NATIVE: bool, R: Ring>(
        &self,
        input: &[u32],
        output: &mut [u32],
        modulus: R,
    ) {
        let input_len = self.input_dimension + 1;
        let output_len = self.output_dimension + 1;
        let coefficient_len = output_len * self.basis.level_count();
        let mut input = input;
        let mut output = output;
        while !input.is_empty() {
            let count = (input.len() / input_len).min(TILE);
            let (input_tile, input_rest) = input.split_at(count * input_len);
            let (output_tile, output_rest) = output.split_at_mut(count * output_len);
            input = input_rest;
            output = output_rest;
            for (input, output) in input_tile
                .chunks_exact(input_len)
                .zip(output_tile.chunks_exact_mut(output_len))
            {
                output[..self.output_dimension].fill(0);
                output[self.output_dimension] = if NATIVE {
                    input[self.input_dimension]
                } else {
                    modulus.neg(input[self.input_dimension])
                };
            }
            if count == 1 {
                self.key_switch_kernel::<NATIVE, R>(
                    &input_tile[..self.input_dimension],
                    output_tile,
                    modulus,
                );
                if !NATIVE {
                    modulus.neg_slice_assign(output_tile);
                }
                continue;
            }
            for (index, block) in self.data.chunks_exact(coefficient_len).enumerate() {
                let mut adjusted = [0u32; TILE];
                let mut carries = [false; TILE];
                for (i, input) in input_tile.chunks_exact(input_len).enumerate() {
                    (adjusted[i], carries[i]) = self.basis.init_value_carry(input[index]);
                }
                for (decomposer, entry) in self
                    .basis
                    .decomposer_iter()
                    .zip(block.chunks_exact(output_len))
                {
                    for (i, output) in output_tile.chunks_exact_mut(output_len).enumerate() {
                        let (digit, carry) = decomposer.decompose(adjusted[i], carries[i]);
                        carries[i] = carry;
                        accumulate_entry::<NATIVE, R>(output, entry, digit, modulus);
                    }
                }
            }
            if !NATIVE {
                modulus.neg_slice_assign(output_tile);
            }
        }
    }

    fn key_switch_kernel<const NATIVE: bool, R: Ring>(
        &self,
        input_mask: &[u32],
        output: &mut [u32],
        modulus: R,
    ) {
        let output_len = self.output_dimension + 1;
        let coefficient_len = output_len * self.basis.level_count();
        for (&coefficient, block) in input_mask
            .iter()
            .zip(self.data.chunks_exact(coefficient_len))
        {
            let (adjusted, mut carry) = self.basis.init_value_carry(coefficient);
            for (decomposer, entry) in self
                .basis
                .decomposer_iter()
                .zip(block.chunks_exact(output_len))
            {
                let (digit, next_carry) = decomposer.decompose(adjusted, carry);
                carry = next_carry;
                accumulate_entry::<NATIVE, R>(output, entry, digit, modulus);
            }
        }
    }
}

#[inline]
fn accumulate_entry<const NATIVE: bool, R: Ring>(
    output: &mut [u32],
    entry: &[u32],
    digit: u32,
    modulus: R,
) {
    if digit == 0 {
        return;
    }
    if NATIVE {
        modulus.add_mul_scalar_slice_assign(output, entry, modulus.neg(digit));
    } else if digit == 1 {
        modulus.add_slice_assign(output, entry);
    } else if digit == modulus.neg(1) {
        modulus.sub_slice_assign(output, entry);
    } else if digit == 2 {
        modulus.add_slice_assign(output, entry);
        modulus.add_slice_assign(output, entry);
    } else if digit == modulus.neg(2) {
        modulus.sub_slice_assign(output, entry);
        modulus.sub_slice_assign(output, entry);
    } else {
        modulus.add_mul_scalar_slice_assign(output, entry, digit);
    }
}
