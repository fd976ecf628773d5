//! The root of a crate whose modules are zeno's own files, with std, as its users build it: `x.sin()`
//! and so on are std's own functions, and the trait is there for the files' `use` alone.
mod lib {
    pub use std::vec::Vec;
}

pub mod command;
pub mod geometry;
pub mod path_builder;
pub mod segment;
pub mod stroke;
pub mod style;

pub(crate) trait F32Ext {}

impl F32Ext for f32 {}
