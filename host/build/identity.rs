//! What `--version` names beside the version: the toolchain and the commit, as they are when the command is built.

use std::path::Path;
use std::process::Command;

/// The first line that a command prints, if it succeeds.
fn line_of(repository: &Path, program: &str, words: &[&str]) -> Option<String> {
    let output = Command::new(program).args(words).current_dir(repository).output().ok()?;
    let text = String::from_utf8(output.stdout).ok()?;
    let line = text.lines().next().unwrap_or("").trim().to_string();
    (output.status.success() && !line.is_empty()).then_some(line)
}

/// The commit, and whether the sources differ from it. There is none where the sources lie in another repository.
fn commit(repository: &Path) -> Option<String> {
    let top = line_of(repository, "git", &["rev-parse", "--show-toplevel"])?;
    if Path::new(&top).canonicalize().ok()? != repository.canonicalize().ok()? {
        return None;
    }
    let commit = line_of(repository, "git", &["rev-parse", "HEAD"])?;
    let changed = line_of(repository, "git", &["status", "--porcelain", "--", "crates", "host", "include"]);
    Some(if changed.is_some() { format!("{commit} with changes") } else { commit })
}

/// Sets STEPHYLAX_TOOLCHAIN and STEPHYLAX_COMMIT for the command line, each only where it is known.
pub fn of_build(repository: &Path) {
    if let Some(toolchain) = line_of(repository, "rt", &["version"]) {
        println!("cargo::rustc-env=STEPHYLAX_TOOLCHAIN={toolchain}");
    }
    if let Some(commit) = commit(repository) {
        println!("cargo::rustc-env=STEPHYLAX_COMMIT={commit}");
    }
    // Where git notes each new commit: the name is taken again then.
    if let Some(log) = line_of(repository, "git", &["rev-parse", "--git-path", "logs/HEAD"]) {
        let log = repository.join(log);
        if log.exists() {
            println!("cargo::rerun-if-changed={}", log.display());
        }
    }
}
