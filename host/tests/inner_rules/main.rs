//! The inner rules of the proved library: against the vectors, and against the independent implementation.

#[path = "../common/mod.rs"]
mod common;
mod frame;
mod proved;
mod random;
mod terms;
mod vectors;
