//! Not supplied; no part of document 01.
