mod batch;
mod borrowed;
mod message;
mod owned;
mod packed;

pub use borrowed::LweSecretKeyRef;
pub use owned::LweSecretKey;
