//! An archive of proved code, built by `rt` where it is older than the sources.

use crate::teller::Teller;
use std::io::{BufRead, BufReader};
use std::path::{Path, PathBuf};
use std::process::{Command, ExitStatus};
use std::time::SystemTime;

/// Has `rt` build an archive, and copies it to where it is linked from.
const SCRIPT: &str = "packaging/archive.sh";
/// How a shell ends that does not find a command.
const NOT_FOUND: Option<i32> = Some(127);

fn modified(path: &Path) -> Option<SystemTime> {
    path.metadata().and_then(|data| data.modified()).ok()
}

/// What the archives are made from: the list of the crates, and of each crate its code, its definitions and its proofs. What
/// checks leave in its `out` is no source.
pub fn sources(repository: &Path) -> Vec<PathBuf> {
    let mut found = vec![repository.join("crates.txt")];
    let crates = std::fs::read_dir(repository.join("crates")).expect("the repository has crates");
    for entry in crates.flatten() {
        let parts = ["src", "specs", "proofs"].map(|part| entry.path().join(part));
        found.extend(parts.into_iter().filter(|part| part.exists()));
    }
    found
}

/// When a file, or one in this folder, last changed.
fn newest(path: &Path) -> Option<SystemTime> {
    if !path.is_dir() {
        return modified(path);
    }
    std::fs::read_dir(path).ok()?.flatten().filter_map(|entry| newest(&entry.path())).max()
}

/// Sees to it that the archive is there and not older than a source.
pub fn fresh(repository: &Path, sources: &[PathBuf], folder: &Path, name: &str) {
    let archive = folder.join(format!("lib{name}.a"));
    if modified(&archive) < sources.iter().filter_map(|source| newest(source)).max() {
        build(repository, name);
    }
    if !archive.exists() {
        panic!("{} is missing although it was built", archive.display());
    }
    println!("cargo::rerun-if-changed={}", archive.display());
}

fn build(repository: &Path, name: &str) {
    let mut said = Vec::new();
    match run(repository, name, &mut said) {
        Ok(status) if status.success() => {}
        Ok(status) if status.code() != NOT_FOUND => panic!(
            "`{SCRIPT} {name}` ended with {status}. Run it in {} to see why; this package links what it writes. It said \
             at last:\n{}",
            repository.display(),
            said[said.len().saturating_sub(20)..].join("\n")
        ),
        ended => panic!(
            "`rt` cannot be run ({}). It builds the proved library that this package links: put the toolchain on the \
             path, or run `{SCRIPT} {name}` in {} yourself.",
            ended.map_or_else(|error| error.to_string(), |status| status.to_string()),
            repository.display()
        ),
    }
}

/// Runs the script, and tells as it goes which crate is proved.
fn run(repository: &Path, name: &str, said: &mut Vec<String>) -> std::io::Result<ExitStatus> {
    let mut teller = Teller::new();
    teller.tell(&format!("the crate {name} and all below it are proved; the first time this takes some minutes"));
    let (lines, writer) = std::io::pipe()?;
    let mut command = Command::new(repository.join(SCRIPT));
    command.arg(name).current_dir(repository);
    command.stdout(writer.try_clone()?).stderr(writer);
    let mut child = command.spawn()?;
    // The command holds the pipe's other end; once it is dropped, the lines end when the script does.
    drop(command);
    for line in BufReader::new(lines).lines() {
        let line = line?;
        if let Some(news) = line.strip_prefix("rt: ") {
            teller.tell(&of_crate(news).map_or(news.to_string(), |name| format!("proving {name}")));
        }
        said.push(line);
    }
    child.wait()
}

/// The crate whose check begins, if these words of `rt` say so: `chose --jobs 2 for NAME`.
fn of_crate(news: &str) -> Option<&str> {
    news.strip_prefix("chose --jobs ")?.split_once(" for ").map(|(_, name)| name)
}
