/// Named by lib.rs; no part of document 01.
pub struct ScaledCodec;
