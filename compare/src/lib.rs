//! The archive and the second program on the same calls.

pub mod archive;
pub mod call;
pub mod child;
pub mod comparison;
pub mod free;
pub mod inputs;
pub mod random;
pub mod second_program;
pub mod session;
pub mod stream;
