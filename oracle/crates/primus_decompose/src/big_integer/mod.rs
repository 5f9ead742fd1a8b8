#[allow(dead_code)]
mod common;

pub use common::{BigUintSignedDecomposerIter, OnceBigUintSignedDecomposer};
