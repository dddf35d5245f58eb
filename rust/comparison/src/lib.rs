//! Hurnavis beside an independent implementation, which was written from the documents alone.
//!
//! - [`before`]: the board by the reading of the base, without copies.
//! - [`boards`]: boards that more than one program measures.
//! - [`independent`]: the calls once more, by another method.
//! - [`layout`]: the packed formats and the words needed, read here a second time; nothing of it is the package `hurnavis`.
//! - [`show`]: times, ratios and bytes in words.
//! - [`trial`]: what the programs share that try random inputs.
//! - [`xorshift`]: a seeded generator for random inputs.
//!
//! The programs `differential`, `copies`, `texts`, `drafts`, `boards`, `deepest`, `bench` and `slowest` stand in `src/bin`.

pub mod before;
pub mod boards;
pub mod independent;
pub mod layout;
pub mod show;
pub mod trial;
pub mod xorshift;
