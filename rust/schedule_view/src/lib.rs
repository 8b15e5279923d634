//! Schedules in words and in pictures: what `./explain` and `./timeline` do. Everything that is said or drawn comes from the engine's answers and its
//! questions about a table.

pub mod command;
pub mod document;
pub mod drawing;
pub mod ending;
pub mod engine;
pub mod explain;
pub mod input;
pub mod layout;
pub mod legend;
pub mod line;
pub mod malformed;
pub mod page;
pub mod passing;
pub mod picture;
pub mod ranks;
pub mod refused;
pub mod run;
pub mod schedule;
pub mod start;
pub mod svg;
pub mod timeline;
pub mod words;
