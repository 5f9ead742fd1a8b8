mod basis;
mod common;

pub use basis::ApproxSignedBasis;
pub use common::{OnceSignedDecomposer, SignedDecomposerIter};
