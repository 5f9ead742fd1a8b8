//! The calls of saigagalena.h for Rust. The header says what holds of each.

// No program uses all of them.
#![allow(dead_code)]

/// The release that these declarations are of.
pub const VERSION: u32 = 6;
/// An answer of 64 bits above this is a refusal: this plus the refusal number.
pub const REFUSED: u64 = 1 << 32;
/// The tally of a public-key, packed or switched ciphertext: none.
pub const NO_TALLY: u64 = u64::MAX;
/// The most encryptions that may be summed in a ciphertext.
pub const MOST_SUMMED: u32 = 65536;

/// What a ciphertext carries beside its words. It comes from the call that wrote them, or from saved data by
/// `saigagalena_saved_tag` or `saigagalena_uncounted_tag`.
#[repr(C)]
#[derive(Clone, Copy, PartialEq, Eq, Debug)]
pub struct Tag {
    tally: u64,
    count: u32,
}

impl Tag {
    /// The number to save, for a tally or none.
    pub fn tally(self) -> u64 {
        self.tally
    }

    /// c, the number of encryptions summed.
    pub fn count(self) -> u32 {
        self.count
    }
}

/// 0 and the tag of each ciphertext that was written; or the first refusal number, no tally and c 1.
#[repr(C)]
#[derive(Clone, Copy, PartialEq, Eq, Debug)]
pub struct Answer {
    pub refusal: u32,
    pub tag: Tag,
}

#[rustfmt::skip]
unsafe extern "C" {
    pub fn saigagalena_version() -> u32;
    pub fn saigagalena_ciphertext_words(n: usize) -> u64;
    pub fn saigagalena_packed_words(n: usize, count: usize) -> u64;
    pub fn saigagalena_public_key_words(n: usize) -> u64;
    pub fn saigagalena_switching_key_words(modulus: u32, base_log: u32, levels: u32, n: usize, m: usize) -> u64;
    pub fn saigagalena_basis(modulus: u32, base_log: u32, levels: u32, out: *mut u32, out_len: usize) -> u32;
    pub fn saigagalena_reading(modulus: u32, base_log: u32, levels: u32, word: u32, out: *mut i64, out_len: usize) -> u32;
    pub fn saigagalena_decompose(modulus: u32, base_log: u32, levels: u32, input: *const u32, input_len: usize, out: *mut u32, out_len: usize) -> u32;
    pub fn saigagalena_digit_counts(modulus: u32, base_log: u32, levels: u32, out: *mut u32, out_len: usize) -> u32;
    pub fn saigagalena_encode(modulus: u32, t: u32, centered: u32, message: u32) -> u64;
    pub fn saigagalena_decode(modulus: u32, t: u32, word: u32) -> u64;
    pub fn saigagalena_encode_slice(modulus: u32, t: u32, centered: u32, messages: *const u32, messages_len: usize, out: *mut u32, out_len: usize) -> u32;
    pub fn saigagalena_decode_slice(modulus: u32, t: u32, words: *const u32, words_len: usize, out: *mut u32, out_len: usize) -> u32;
    pub fn saigagalena_encrypt_encoded(modulus: u32, n: usize, error_limit: u32, secret: *const u32, secret_len: usize, mask: *const u32, mask_len: usize, errors: *const i32, errors_len: usize, plaintext: u32, out: *mut u32, out_len: usize) -> Answer;
    pub fn saigagalena_encrypt_encoded_signed(modulus: u32, n: usize, error_limit: u32, secret: *const i32, secret_len: usize, mask: *const u32, mask_len: usize, errors: *const i32, errors_len: usize, plaintext: u32, out: *mut u32, out_len: usize) -> Answer;
    pub fn saigagalena_encrypt_message(modulus: u32, n: usize, t: u32, error_limit: u32, centered: u32, secret: *const u32, secret_len: usize, mask: *const u32, mask_len: usize, errors: *const i32, errors_len: usize, message: u32, out: *mut u32, out_len: usize) -> Answer;
    pub fn saigagalena_encrypt_message_signed(modulus: u32, n: usize, t: u32, error_limit: u32, centered: u32, secret: *const i32, secret_len: usize, mask: *const u32, mask_len: usize, errors: *const i32, errors_len: usize, message: u32, out: *mut u32, out_len: usize) -> Answer;
    pub fn saigagalena_encrypt_message_batch(modulus: u32, n: usize, t: u32, error_limit: u32, centered: u32, secret: *const u32, secret_len: usize, masks: *const u32, masks_len: usize, errors: *const i32, errors_len: usize, messages: *const u32, messages_len: usize, out: *mut u32, out_len: usize) -> Answer;
    pub fn saigagalena_encrypt_encoded_packed(modulus: u32, n: usize, error_limit: u32, secret: *const u32, secret_len: usize, mask: *const u32, mask_len: usize, errors: *const i32, errors_len: usize, plaintexts: *const u32, plaintexts_len: usize, out: *mut u32, out_len: usize) -> Answer;
    pub fn saigagalena_encrypt_message_packed(modulus: u32, n: usize, t: u32, error_limit: u32, centered: u32, secret: *const u32, secret_len: usize, mask: *const u32, mask_len: usize, errors: *const i32, errors_len: usize, messages: *const u32, messages_len: usize, out: *mut u32, out_len: usize) -> Answer;
    pub fn saigagalena_decrypt_phase(modulus: u32, n: usize, secret: *const u32, secret_len: usize, ciphertext: *const u32, ciphertext_len: usize) -> u64;
    pub fn saigagalena_decrypt_phase_signed(modulus: u32, n: usize, secret: *const i32, secret_len: usize, ciphertext: *const u32, ciphertext_len: usize) -> u64;
    pub fn saigagalena_decrypt_message(modulus: u32, n: usize, t: u32, secret: *const u32, secret_len: usize, ciphertext: *const u32, ciphertext_len: usize) -> u64;
    pub fn saigagalena_decrypt_message_signed(modulus: u32, n: usize, t: u32, secret: *const i32, secret_len: usize, ciphertext: *const u32, ciphertext_len: usize) -> u64;
    pub fn saigagalena_decrypt_phase_batch(modulus: u32, n: usize, secret: *const u32, secret_len: usize, input: *const u32, input_len: usize, out: *mut u32, out_len: usize) -> u32;
    pub fn saigagalena_decrypt_message_batch(modulus: u32, n: usize, t: u32, secret: *const u32, secret_len: usize, input: *const u32, input_len: usize, out: *mut u32, out_len: usize) -> u32;
    pub fn saigagalena_decrypt_phase_packed(modulus: u32, n: usize, secret: *const u32, secret_len: usize, input: *const u32, input_len: usize, out: *mut u32, out_len: usize) -> u32;
    pub fn saigagalena_decrypt_message_packed(modulus: u32, n: usize, t: u32, secret: *const u32, secret_len: usize, input: *const u32, input_len: usize, out: *mut u32, out_len: usize) -> u32;
    pub fn saigagalena_public_key_generate(modulus: u32, n: usize, error_limit: u32, secret: *const u32, secret_len: usize, masks: *const u32, masks_len: usize, errors: *const i32, errors_len: usize, out: *mut u32, out_len: usize) -> u32;
    pub fn saigagalena_public_key_generate_signed(modulus: u32, n: usize, error_limit: u32, secret: *const i32, secret_len: usize, masks: *const u32, masks_len: usize, errors: *const i32, errors_len: usize, out: *mut u32, out_len: usize) -> u32;
    pub fn saigagalena_public_key_encrypt_encoded(modulus: u32, n: usize, error_limit: u32, key: *const u32, key_len: usize, errors: *const i32, errors_len: usize, coefficients: *const i32, coefficients_len: usize, plaintext: u32, out: *mut u32, out_len: usize) -> Answer;
    pub fn saigagalena_public_key_encrypt_message(modulus: u32, n: usize, t: u32, error_limit: u32, centered: u32, key: *const u32, key_len: usize, errors: *const i32, errors_len: usize, coefficients: *const i32, coefficients_len: usize, message: u32, out: *mut u32, out_len: usize) -> Answer;
    pub fn saigagalena_saved_tag(tally: u64, count: u32) -> Tag;
    pub fn saigagalena_uncounted_tag() -> Tag;
    pub fn saigagalena_add(modulus: u32, n: usize, x: *mut u32, x_len: usize, x_tag: Tag, y: *const u32, y_len: usize, y_tag: Tag) -> Answer;
    pub fn saigagalena_is_good(modulus: u32, t: u32, tag: Tag) -> u64;
    pub fn saigagalena_extract(modulus: u32, n: usize, input: *const u32, input_len: usize, tag: Tag, index: usize, out: *mut u32, out_len: usize) -> Answer;
    pub fn saigagalena_switching_key_generate(modulus: u32, base_log: u32, levels: u32, n: usize, m: usize, error_limit: u32, input_key: *const u32, input_key_len: usize, output_key: *const u32, output_key_len: usize, masks: *const u32, masks_len: usize, errors: *const i32, errors_len: usize, out: *mut u32, out_len: usize) -> u32;
    pub fn saigagalena_switching_key_generate_signed(modulus: u32, base_log: u32, levels: u32, n: usize, m: usize, error_limit: u32, input_key: *const i32, input_key_len: usize, output_key: *const u32, output_key_len: usize, masks: *const u32, masks_len: usize, errors: *const i32, errors_len: usize, out: *mut u32, out_len: usize) -> u32;
    pub fn saigagalena_key_switch(modulus: u32, base_log: u32, levels: u32, n: usize, m: usize, key: *const u32, key_len: usize, input: *const u32, input_len: usize, tag: Tag, out: *mut u32, out_len: usize) -> Answer;
    pub fn saigagalena_key_switch_batch(modulus: u32, base_log: u32, levels: u32, n: usize, m: usize, key: *const u32, key_len: usize, input: *const u32, input_len: usize, tags: *mut Tag, tags_len: usize, out: *mut u32, out_len: usize) -> u32;
    pub fn saigagalena_encrypt_encoded_error_words(modulus: u32, n: usize, error_limit: u32, secret: *const u32, secret_len: usize, mask: *const u32, mask_len: usize, errors: *const u32, errors_len: usize, plaintext: u32, out: *mut u32, out_len: usize) -> Answer;
    pub fn saigagalena_encrypt_encoded_signed_error_words(modulus: u32, n: usize, error_limit: u32, secret: *const i32, secret_len: usize, mask: *const u32, mask_len: usize, errors: *const u32, errors_len: usize, plaintext: u32, out: *mut u32, out_len: usize) -> Answer;
    pub fn saigagalena_encrypt_message_error_words(modulus: u32, n: usize, t: u32, error_limit: u32, centered: u32, secret: *const u32, secret_len: usize, mask: *const u32, mask_len: usize, errors: *const u32, errors_len: usize, message: u32, out: *mut u32, out_len: usize) -> Answer;
    pub fn saigagalena_encrypt_message_signed_error_words(modulus: u32, n: usize, t: u32, error_limit: u32, centered: u32, secret: *const i32, secret_len: usize, mask: *const u32, mask_len: usize, errors: *const u32, errors_len: usize, message: u32, out: *mut u32, out_len: usize) -> Answer;
    pub fn saigagalena_encrypt_message_batch_error_words(modulus: u32, n: usize, t: u32, error_limit: u32, centered: u32, secret: *const u32, secret_len: usize, masks: *const u32, masks_len: usize, errors: *const u32, errors_len: usize, messages: *const u32, messages_len: usize, out: *mut u32, out_len: usize) -> Answer;
    pub fn saigagalena_encrypt_encoded_packed_error_words(modulus: u32, n: usize, error_limit: u32, secret: *const u32, secret_len: usize, mask: *const u32, mask_len: usize, errors: *const u32, errors_len: usize, plaintexts: *const u32, plaintexts_len: usize, out: *mut u32, out_len: usize) -> Answer;
    pub fn saigagalena_encrypt_message_packed_error_words(modulus: u32, n: usize, t: u32, error_limit: u32, centered: u32, secret: *const u32, secret_len: usize, mask: *const u32, mask_len: usize, errors: *const u32, errors_len: usize, messages: *const u32, messages_len: usize, out: *mut u32, out_len: usize) -> Answer;
    pub fn saigagalena_public_key_generate_error_words(modulus: u32, n: usize, error_limit: u32, secret: *const u32, secret_len: usize, masks: *const u32, masks_len: usize, errors: *const u32, errors_len: usize, out: *mut u32, out_len: usize) -> u32;
    pub fn saigagalena_public_key_generate_signed_error_words(modulus: u32, n: usize, error_limit: u32, secret: *const i32, secret_len: usize, masks: *const u32, masks_len: usize, errors: *const u32, errors_len: usize, out: *mut u32, out_len: usize) -> u32;
    pub fn saigagalena_public_key_encrypt_encoded_error_words(modulus: u32, n: usize, error_limit: u32, key: *const u32, key_len: usize, errors: *const u32, errors_len: usize, coefficients: *const i32, coefficients_len: usize, plaintext: u32, out: *mut u32, out_len: usize) -> Answer;
    pub fn saigagalena_public_key_encrypt_message_error_words(modulus: u32, n: usize, t: u32, error_limit: u32, centered: u32, key: *const u32, key_len: usize, errors: *const u32, errors_len: usize, coefficients: *const i32, coefficients_len: usize, message: u32, out: *mut u32, out_len: usize) -> Answer;
    pub fn saigagalena_switching_key_generate_error_words(modulus: u32, base_log: u32, levels: u32, n: usize, m: usize, error_limit: u32, input_key: *const u32, input_key_len: usize, output_key: *const u32, output_key_len: usize, masks: *const u32, masks_len: usize, errors: *const u32, errors_len: usize, out: *mut u32, out_len: usize) -> u32;
    pub fn saigagalena_switching_key_generate_signed_error_words(modulus: u32, base_log: u32, levels: u32, n: usize, m: usize, error_limit: u32, input_key: *const i32, input_key_len: usize, output_key: *const u32, output_key_len: usize, masks: *const u32, masks_len: usize, errors: *const u32, errors_len: usize, out: *mut u32, out_len: usize) -> u32;
}
