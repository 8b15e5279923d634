//! The texts that the tests of words expect, a table for each kind.

pub mod answers;
pub mod endings;
pub mod malformed;
