//! The tests of what is said and drawn, in one program, since each program more would be linked with the library once more.

mod common;
mod expected;
mod inputs;
mod markup;
mod pictures;
mod programs;
mod ranks;
mod scan;
mod stored;
mod words;
