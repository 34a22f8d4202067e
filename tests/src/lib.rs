//! What the tests share: the functions of the archive, random inputs, and a call made on both programs.

pub mod buffer;
pub mod calls;
pub mod headers;
pub mod lending;
pub mod library;
pub mod mirror;
pub mod random;
pub mod states;
pub mod streaming;
pub mod tally;
