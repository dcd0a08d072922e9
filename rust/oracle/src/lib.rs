//! An oracle for the port: the published appendfs Rust, run on images in document 01's layout.
//!
//! - [`image`]: the layout, read and written by document 01 alone.
//! - [`store`]: an image as a real `FsInner`, the real calls, and back.
//! - [`calls`]: the same calls with document 01's refusals before them.
//! - [`lines`]: calls as lines of text, with their answers.
//! - [`builders`]: images put together by hand.
//! - [`random`]: images and calls from a seed.
//! - [`list`]: the fixed list of reads.
//! - [`changes`]: the fixed list of changes.

pub mod builders;
pub mod calls;
pub mod changes;
pub mod image;
pub mod lines;
pub mod list;
pub mod random;
pub mod store;
