//! Where the series of the planets are.

use crate::failure::Failure;
use crate::series::Kind;
use std::path::{Path, PathBuf};

/// Below the folder that has the command's `bin`.
const INSTALLED: &str = "share/stephylax/vsop87d";
/// Seen from the package that the command was built from.
const IN_REPOSITORY: &str = "../data/vsop87d";

/// The folder given, else STEPHYLAX_DATA, else what was installed beside the command, else the repository's. The current folder
/// is never searched.
pub fn folder(given: Option<&str>) -> Result<PathBuf, Failure> {
    if given == Some("") {
        return Err(Failure::Use("--data wants a folder".to_string()));
    }
    let in_environment = || std::env::var_os("STEPHYLAX_DATA").filter(|folder| !folder.is_empty()).map(PathBuf::from);
    let in_repository = || Path::new(env!("CARGO_MANIFEST_DIR")).join(IN_REPOSITORY);
    let folder = given.map(PathBuf::from).or_else(in_environment).or_else(installed).unwrap_or_else(in_repository);
    Ok(folder.canonicalize().unwrap_or(folder))
}

/// The published files end in the first letters of their planet.
const PUBLISHED: [&str; 8] = ["mercury", "venus", "earth", "mars", "jupiter", "saturn", "uranus", "neptune"];

/// A planet's file in the folder of series, and what it is: its text, else its published file.
pub fn file(folder: &Path, name: &str) -> Result<(PathBuf, Kind), Failure> {
    let text = folder.join(format!("{name}.txt"));
    let published = PUBLISHED.contains(&name).then(|| folder.join(format!("VSOP87D.{}", &name[..3])));
    let missing = match &published {
        _ if text.is_file() => return Ok((text, Kind::Text)),
        Some(file) if file.is_file() => return Ok((file.clone(), Kind::Published)),
        Some(file) => format!("neither {} nor {} is there", text.display(), file.display()),
        None => format!("{} is not there", text.display()),
    };
    Err(Failure::File(format!(
        "there is no planet `{name}`: {missing} (put its series there, or give a file with its path, as ./{name})"
    )))
}

fn installed() -> Option<PathBuf> {
    let command = std::env::current_exe().ok()?;
    let folder = command.parent()?.parent()?.join(INSTALLED);
    folder.is_dir().then_some(folder)
}
