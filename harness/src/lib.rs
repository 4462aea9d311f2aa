//! A session beside two independent models of it.
#![deny(unsafe_code)]

pub mod answers;
pub mod assembler;
pub mod books;
pub mod calls;
pub mod cases;
pub mod check;
#[allow(unsafe_code)]
mod ffi;
pub mod golden;
pub mod ground;
pub mod lists;
pub mod memories;
pub mod memory;
pub mod model;
pub mod parallel;
pub mod random;
pub mod rules;
pub mod runs;
pub mod session;
pub mod shrink;
pub mod sorts;
pub mod stage;
pub mod tries;
pub mod written;
