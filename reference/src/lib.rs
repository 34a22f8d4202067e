//! A second program for the device of the data sheet (docs/DATASHEET.md), written
//! from the rules alone and used to cross-check the proved one. Plain Rust, std
//! only, no unsafe code.

#![forbid(unsafe_code)]

pub mod account;
pub mod command;
pub mod device;
pub mod format;
pub mod frame;
pub mod host;
pub mod lent;
pub mod linear11;
pub mod machine;
pub mod page;
pub mod pec;
pub mod random;
pub mod stream;
pub mod thousandths;
pub mod totalizer;
