/// Named by lib.rs; no part of document 01.
pub fn phase_error_magnitude() {}

/// Named by lib.rs; no part of document 01.
pub fn phase_error_magnitude_slice_to() {}
