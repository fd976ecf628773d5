//! What the programs share.
pub mod arc;
pub mod centred;
pub mod chorded;
pub mod generator;
pub mod host;
pub mod job;
pub mod jobs;
pub mod journal;
pub mod paths;
pub mod planned;
pub mod program;
pub mod spelling;
