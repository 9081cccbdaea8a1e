//! Which Stephylax this is.

use crate::json::Json;

pub const VERSION: &str = env!("CARGO_PKG_VERSION");
/// The identity of the toolchain, and the commit, as they were when the command was built.
const TOOLCHAIN: Option<&str> = option_env!("STEPHYLAX_TOOLCHAIN");
const COMMIT: Option<&str> = option_env!("STEPHYLAX_COMMIT");

pub fn text() -> String {
    let known = |what: Option<&'static str>| what.unwrap_or("not known");
    format!("stephylax {VERSION}\ntoolchain: {}\ncommit: {}\n", known(TOOLCHAIN), known(COMMIT))
}

pub fn json() -> Json {
    Json::Object(vec![("stephylax", VERSION.into()), ("toolchain", TOOLCHAIN.into()), ("commit", COMMIT.into())])
}
