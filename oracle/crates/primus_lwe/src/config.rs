/// Named by lib.rs; no part of document 01.
pub struct LweConfig;

/// Named by lib.rs; no part of document 01.
pub struct LweConfigError;
