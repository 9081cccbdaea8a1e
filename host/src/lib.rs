//! Stephylax for Rust programs: safe calls of the proved library, with its refusals in words.
//!
//! Nothing here decides anything that the library decides.

mod answers;
pub mod ffi;
mod library;
mod refusal;

pub use answers::{Change, Checked, Clean, Coordinates, Date, Fate, Mended, Mount, Place};
pub use library::*;
pub use refusal::{Field, Refusal};
