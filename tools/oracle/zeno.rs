//! The root of a crate whose modules are zeno's own files, and `counted`, the copy of `stroke` that
//! `count.rs` makes. `build` lays them beside this one.
//!
//! std must stay out of this crate: with it the calls `x.sin()`, `x.sqrt()` and so on would reach
//! std's own functions, not the trait in `ext`.
#![no_std]

extern crate alloc;

pub(crate) mod lib {
    pub use alloc::vec::Vec;
}

pub mod command;
pub mod counted;
mod ext;
pub mod geometry;
pub mod path_builder;
pub mod segment;
pub mod stroke;
pub mod style;

pub(crate) use ext::F32Ext;
