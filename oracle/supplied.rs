//! The supplied Rust as a crate for the driver and for the comparison with the proved library.

pub mod call;
pub mod rust;
