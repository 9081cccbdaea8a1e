//! Runs the command, in a folder with files that it must not take for planets.

use crate::common::repository;
use std::io::Write;
use std::path::{Path, PathBuf};
use std::process::{Command, Output, Stdio};
use std::sync::OnceLock;

/// A file of this test run.
pub fn scratch(name: &str) -> PathBuf {
    PathBuf::from(env!("CARGO_TARGET_TMPDIR")).join(name)
}

/// The folder that commands run in: `earth`, `mercury` and data/vsop87d/earth.txt stand there, good series of a body that rests.
pub fn elsewhere() -> &'static Path {
    static FOLDER: OnceLock<PathBuf> = OnceLock::new();
    FOLDER.get_or_init(|| {
        let folder = scratch("elsewhere");
        std::fs::create_dir_all(folder.join("data/vsop87d")).unwrap();
        for name in ["earth", "mercury", "earth.txt", "data/vsop87d/earth.txt", "data/vsop87d/mercury.txt"] {
            std::fs::write(folder.join(name), radial("1.00000000000", "0.00000000000")).unwrap();
        }
        folder
    })
}

/// The command with these words.
pub fn command(words: &[&str]) -> Command {
    let mut command = Command::new(env!("CARGO_BIN_EXE_stephylax"));
    command.args(words).current_dir(elsewhere()).env_remove("STEPHYLAX_DATA");
    command.stdin(Stdio::null()).stdout(Stdio::piped()).stderr(Stdio::piped());
    command
}

pub fn run_with(input: &[u8], mut command: Command) -> Output {
    let mut child = command.stdin(Stdio::piped()).spawn().expect("the program starts");
    let mut stdin = child.stdin.take().unwrap();
    let input = input.to_vec();
    // A program that refuses early may not read all of its input.
    let writer = std::thread::spawn(move || drop(stdin.write_all(&input)));
    let output = child.wait_with_output().expect("the program ends");
    writer.join().unwrap();
    output
}

pub fn run(words: &[&str]) -> Output {
    command(words).output().expect("the program runs")
}

pub fn text(bytes: &[u8]) -> String {
    String::from_utf8(bytes.to_vec()).expect("UTF-8")
}

/// What the command prints; it says nothing else and is answered.
pub fn printed(words: &[&str]) -> String {
    let output = run(words);
    assert_eq!(text(&output.stderr), "", "{words:?}");
    assert_eq!(output.status.code(), Some(0), "{words:?}");
    text(&output.stdout)
}

pub fn prints(words: &[&str], wanted: &str) {
    assert_eq!(printed(words), wanted, "{words:?}");
}

/// What the command says on standard error, with this status and nothing on standard output.
pub fn says(words: &[&str], status: i32) -> String {
    said(words, &run(words), status)
}

fn said(words: &[&str], output: &Output, status: i32) -> String {
    let said = text(&output.stderr);
    assert_eq!(text(&output.stdout), "", "{words:?}");
    assert_eq!(output.status.code(), Some(status), "{words:?}: {said}");
    said
}

/// Nothing on standard output, a message that begins so, and the status.
pub fn fails(words: &[&str], status: i32, message: &str) {
    let said = says(words, status);
    assert!(said.starts_with(&format!("stephylax: {message}")), "{words:?}: {said}");
}

/// The same with these bytes on standard input.
pub fn fails_with(input: &[u8], words: &[&str], status: i32, message: &str) {
    let said = said(words, &run_with(input, command(words)), status);
    assert!(said.starts_with(&format!("stephylax: {message}")), "{words:?}: {said}");
}

/// The published series of a planet, as a file.
pub fn published_file(planet: &str) -> String {
    let path = repository("data/vsop87d").join(format!("{planet}.txt")).canonicalize().unwrap();
    path.to_str().unwrap().to_string()
}

/// A file of this test run with these bytes.
pub fn file(name: &str, bytes: &[u8]) -> String {
    let path = scratch(name);
    std::fs::write(&path, bytes).unwrap();
    path.to_str().unwrap().to_string()
}

/// A folder of this test run, with nothing in it.
pub fn folder(name: &str) -> PathBuf {
    let folder = scratch(name);
    let _ = std::fs::remove_dir_all(&folder);
    std::fs::create_dir_all(&folder).unwrap();
    folder
}

/// A symbolic link, which goes again with the test, also where that fails: the gate refuses one anywhere in the repository.
pub struct Link(PathBuf);

impl Link {
    pub fn to(original: impl AsRef<Path>, link: PathBuf) -> Link {
        std::os::unix::fs::symlink(original, &link).unwrap();
        Link(link)
    }
}

impl Drop for Link {
    fn drop(&mut self) {
        let _ = std::fs::remove_file(&self.0);
    }
}

/// The names in a folder.
pub fn names(folder: &Path) -> Vec<String> {
    let entries = std::fs::read_dir(folder).unwrap();
    let mut names: Vec<String> = entries.map(|entry| entry.unwrap().file_name().into_string().unwrap()).collect();
    names.sort();
    names
}

/// What `check` says last of a series that is good for the wide range.
pub const WIDE: &str = "It is good for four millennia on either side of 2000-01-01 12h TD.\n";

/// A series whose longitude and latitude are 0, and whose radius grows by `growth` AU in a millennium.
pub fn radial(radius: &str, growth: &str) -> String {
    let term = |a: &str| format!("1\n{a} 0.00000000000 0.00000000000\n");
    format!("{}{}{}{}", "0\n".repeat(12), term(radius), term(growth), "0\n".repeat(4))
}

/// A series of a body that rests, whose first block totals one part more than it may in the wide range.
pub fn narrow() -> String {
    let series = radial("0.40000000000", "0.00000000000");
    series.replacen("0\n", "1\n50000.00000000001 0.00000000000 0.00000000000\n", 1)
}
