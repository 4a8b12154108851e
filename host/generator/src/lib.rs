//! Seeded random FOQ programs, circuits and damage, for comparing one
//! implementation of document 01 with another.
//!
//! Nothing here judges a program: the trees are written to bytes and handed
//! on as bytes. One seed always gives the same row of programs.
//!
//! - [`Random`] is the source of chance.
//! - [`tree`] holds the trees and [`tree::encode`].
//! - [`programs`] makes programs that are mostly accepted and wild ones that
//!   mostly are not.
//! - [`numbers`] shows the numbers of a program and the fields that they stand
//!   in, and [`size_left`] makes programs with base 2.
//! - [`tables`] holds single tables: small ones of every kind, and those at a
//!   limit.
//! - [`published`] holds programs of source 002, [`emissions`] tables whose
//!   emission is at a limit, [`equal_lengths`] tables whose procedures meet at
//!   one list length, and [`merged_lists`] makes programs whose circuits are
//!   mostly swaps.
//! - [`steps`] makes programs of many sequences, in which the order matters.
//! - [`circuits`] makes well-formed circuits, and circuits of given gates.
//! - [`damage`] spoils bytes.

#![deny(clippy::unwrap_used, clippy::expect_used, clippy::panic)]

pub mod circuits;
pub mod damage;
pub mod emissions;
pub mod equal_lengths;
pub mod merged_lists;
pub mod numbers;
pub mod programs;
pub mod published;
pub mod size_left;
pub mod steps;
pub mod tables;
pub mod tree;

mod random;

pub use random::Random;

/// PAIRS, a worked program of document 01.
pub const PAIRS: &[u8] = include_bytes!("../../../examples/pairs.foq");
