//! What the proved library is compared with: the rules in plain Rust (`plain`), the same work in f64 (`floating`); and published
//! files to compare on (`layout`).
//!
//! Only tests and the benchmark use it; neither the wrapper nor the command line do.

pub mod floating;
pub mod layout;
pub mod plain;
