//! The programs that the README shows: the one in C compiles without a warning, runs, and looks at every refusal; the one in
//! Rust answers the same.

mod common;

use common::repository;
use std::path::{Path, PathBuf};
use std::process::{Command, Output};

fn temporary(name: &str) -> PathBuf {
    PathBuf::from(env!("CARGO_TARGET_TMPDIR")).join(name)
}

/// The program, compiled to a file of its own for each test.
fn compiled(name: &str) -> PathBuf {
    let program = temporary(name);
    let mut compiler = Command::new("gcc");
    compiler.args(["-std=c99", "-Wall", "-Wextra", "-Werror", "-pedantic", "-O2"]);
    compiler.arg("-I").arg(repository("include")).arg(repository("host/tests/c/example.c"));
    compiler.arg(repository("target/staticlib/libstephylax.a")).arg("-o").arg(&program);
    let compiled = compiler.output().expect("gcc runs");
    assert!(compiled.status.success(), "{}", String::from_utf8_lossy(&compiled.stderr));
    program
}

fn run(program: &Path, folder: &Path) -> Output {
    Command::new(program).current_dir(folder).env("LC_ALL", "C").output().expect("the program runs")
}

#[test]
fn example() {
    let run = run(&compiled("example"), &repository(""));
    assert_eq!(String::from_utf8_lossy(&run.stdout), "shut from minute 296 to 1439\n");
    assert_eq!(String::from_utf8_lossy(&run.stderr), "");
    assert_eq!(run.status.code(), Some(0));
}

/// A file that is missing, damaged, cut off or too long is told, and no list is printed.
#[test]
fn refused_files() {
    let program = compiled("example_refused");
    let folder = temporary("example_files");
    let series = folder.join("data/vsop87d");
    let _ = std::fs::remove_dir_all(&folder);
    std::fs::create_dir_all(&series).unwrap();
    std::fs::write(series.join("mercury.txt"), common::published("mercury")).unwrap();
    let earth = common::published("earth");
    let mut damaged = earth.clone();
    damaged[100] = b'x';
    let short = earth[..50_000].to_vec();
    let long = [earth.clone(), vec![b'0'; 400_000]].concat();
    let cases: [(Option<Vec<u8>>, &str); 4] = [
        (None, "data/vsop87d/earth.txt: No such file or directory\n"),
        (Some(damaged), "data/vsop87d/earth.txt: refused 3 (100)\n"),
        (Some(short), "data/vsop87d/earth.txt: refused 8 (50000)\n"),
        (Some(long), "data/vsop87d/earth.txt: not read to its end\n"),
    ];
    for (bytes, said) in cases {
        if let Some(bytes) = bytes {
            std::fs::write(series.join("earth.txt"), bytes).unwrap();
        }
        let run = run(&program, &folder);
        assert_eq!(String::from_utf8_lossy(&run.stderr), said);
        assert_eq!(String::from_utf8_lossy(&run.stdout), "");
        assert_eq!(run.status.code(), Some(1));
    }
    std::fs::remove_dir_all(&folder).unwrap();
}

/// The program in Rust prints the same.
#[test]
fn in_rust() {
    let mut cargo = Command::new(env!("CARGO"));
    cargo
        .args(["run", "--offline", "--quiet", "--example", "sun_list", "--manifest-path"])
        .arg(repository("host/Cargo.toml"));
    let run = cargo.current_dir(repository("")).output().expect("cargo runs");
    assert_eq!(String::from_utf8_lossy(&run.stdout), "shut from minute 296 to 1439\n");
    assert!(run.status.success(), "{}", String::from_utf8_lossy(&run.stderr));
}

/// The README shows each program from its main function on.
#[test]
fn shown_in_the_readme() {
    let read = |name| std::fs::read_to_string(repository(name)).unwrap();
    let readme = read("README.md");
    for (language, program, main) in
        [("c", "host/tests/c/example.c", "int main"), ("rust", "host/examples/sun_list.rs", "fn main")]
    {
        let whole = read(program);
        let shown = &whole[whole.find(main).unwrap()..];
        assert!(readme.contains(&format!("```{language}\n{shown}```")), "{program}");
    }
}
