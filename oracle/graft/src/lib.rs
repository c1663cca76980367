//! The crate as the original's files expect it. `setup.sh` puts the original files beside these, each in the place where the
//! original has it; every file that stands here is ours, a stand-in for what is not given. The module `core` is the crate's own.
#![allow(dead_code, unused_imports)]

pub use static_assertions;

#[macro_use]
mod macros; // stand-in

pub mod core; // stand-in: core/mod.rs
pub mod err; // stand-in
pub mod local; // stand-in: local/mod.rs
pub mod snapshot; // original
pub mod volume; // original

pub use err::LogicalErr;
