//! The command line: what it prints, what it writes, and its exit status.

mod calendar;
#[path = "../common/mod.rs"]
mod common;
mod files;
mod json;
mod lists;
mod mending;
mod picture;
mod places;
mod published;
mod run;
mod sources;
mod wide_range;
mod wrong_use;
