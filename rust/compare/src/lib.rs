//! The comparison of the library with the second program, call by call and table by table.

pub mod calls;
pub mod check;
pub mod random;
pub mod tables;
pub mod tiny;
