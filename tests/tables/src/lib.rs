//! What the programs and tests here share: the layout of a table's bytes, tables made by construction, damage done to them, the questions, and the
//! comparison of the library with the second engine and the second dispatcher.

pub mod call;
pub mod cases;
pub mod compare;
pub mod construct;
pub mod damage;
pub mod dispatches;
pub mod drawn;
pub mod layout;
pub mod made;
pub mod passing;
pub mod questions;
pub mod read_only;
