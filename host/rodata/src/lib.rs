//! What the root and the logarithm hold in read-only memory, which is small in an instrument
//! (document 02, e): by their code, and by the object that they are compiled to.

mod arrays;
pub mod constants;
pub mod edits;
pub mod elf;
mod files;
pub mod object;
pub mod source;
mod tokens;
