//! Upstream's printer and what stands around it: function files read, written, shown, made and generated.

#[macro_use]
pub mod reach;
pub mod coverage;
pub mod gen;
pub mod list;
pub mod offsets;
pub mod read;
pub mod records;
pub mod refusal;
pub mod text;
pub mod upstream;
pub mod vectors;
pub mod write;
