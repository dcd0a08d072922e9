//! The port and the published Rust in one process, compared call by call.
//!
//! - [`port`]: the static library.
//! - [`judge`]: what it must answer: the published Rust's answer, with document 01's refusals and [`places`].
//! - [`compare`]: both asked the same.
//! - [`random`], [`images`]: images and calls from a seed.
//! - [`boundaries`], [`sequences`], [`invalid`]: what is asked.
//! - [`shrink`]: a difference made small.

pub mod boundaries;
pub mod compare;
pub mod images;
pub mod invalid;
pub mod judge;
pub mod places;
pub mod port;
pub mod random;
pub mod sequences;
pub mod shrink;
