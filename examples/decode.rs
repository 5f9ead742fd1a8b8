//! The library from Rust: two counts are encoded, their words added, and the sum decoded. scripts/c_test.sh builds and
//! runs it where there is a rustc.

#[path = "../include/saigagalena.rs"]
mod saigagalena;

use saigagalena::{REFUSED, VERSION, saigagalena_decode, saigagalena_encode, saigagalena_version};

const NATIVE: u32 = 0;
const T: u32 = 16;

/// The word or message, or the refusal number.
fn answered(answer: u64) -> Result<u32, u64> {
    u32::try_from(answer).map_err(|_| answer - REFUSED)
}

fn encode(message: u32) -> Result<u32, u64> {
    // Numbers only: there is no pointer to be wrong about.
    answered(unsafe { saigagalena_encode(NATIVE, T, 0, message) })
}

fn decode(word: u32) -> Result<u32, u64> {
    answered(unsafe { saigagalena_decode(NATIVE, T, word) })
}

fn main() -> Result<(), u64> {
    assert_eq!(unsafe { saigagalena_version() }, VERSION);
    let sum = encode(3)?.wrapping_add(encode(4)?);
    let total = decode(sum)?;
    println!("3 + 4 opens to {total}; 16 is refused by {}", encode(16).unwrap_err());
    if total == 7 && encode(16) == Err(16) { Ok(()) } else { Err(0) }
}
