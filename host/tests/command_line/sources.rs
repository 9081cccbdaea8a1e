//! Which series a word means, and that every answer names it.

use crate::common::{hash, published, repository};
use crate::run::{
    command, elsewhere, fails, fails_with, file, printed, published_file, run, run_with, says, scratch, text, WIDE,
};
use std::process::Command;

const TRANSIT: [&str; 3] = ["2019-11-11", "--keep-out", "60"];

/// A number below a million, its thousands parted.
fn parted(n: i64) -> String {
    if n < 1000 {
        n.to_string()
    } else {
        format!("{},{:03}", n / 1000, n % 1000)
    }
}

/// What is told of a published series.
fn told(planet: &str, name: &str, from: &str) -> String {
    let mut packed = vec![0; 200_000];
    let length = stephylax::read_text(&published(planet), &mut packed).unwrap();
    let terms = stephylax::check(&packed[..length]).unwrap().terms;
    let (terms, bytes) = (parted(terms), parted(length as i64));
    format!("{name}: {terms} terms, {bytes} bytes packed, fnv1a64 {:016x}, from {from} (text)", hash(&packed[..length]))
}

/// A comment and a cut text make, byte for byte, a good packed series. As a file it is a text, and refused.
#[test]
fn a_damaged_text_is_not_packed() {
    let damaged = [b"# VSOP87D Venus\n".as_slice(), &published("venus")[..2681]].concat();
    let path = file("damaged.txt", &damaged);
    assert!(printed(&["check", &format!("packed:{path}")]).contains(": a good series of 8"));
    fails(&["check", &path], 1, "refused 3 (0)");
    assert!(says(&["check", &path], 1).contains(&format!("; {path} was read as text\n")));
    fails(&["sun-list", &path, "2019-11-11"], 1, "refused 3 (0)");
    fails_with(&damaged, &["check", "-"], 1, "refused 3 (0)");
    // Letters of other encodings stand in texts too.
    let latin = [b"# Plan\xe8tes\n".as_slice(), &published("venus")].concat();
    fails_with(&latin, &["check", "-"], 1, "refused 3 (0)");
    fails_with(b"", &["check", "-"], 1, "refused 8 (0)");
}

#[test]
fn kinds_are_told() {
    let path = scratch("kinds.packed");
    let path = path.to_str().unwrap();
    assert_eq!(printed(&["pack", &published_file("venus"), path]), "");
    assert!(printed(&["check", path]).ends_with(&format!(", from {path} (packed)\n{WIDE}")));
    assert!(printed(&["check", &format!("packed:{path}")]).ends_with(&format!("(packed)\n{WIDE}")));
    fails(&["check", &format!("text:{path}")], 1, "refused 3 (");
    let piped = run_with(&published("venus"), command(&["check", "-"]));
    assert!(text(&piped.stdout).starts_with("standard input: a good series of 1,682 terms"));
    assert!(text(&piped.stdout).ends_with(&format!(", from standard input (text)\n{WIDE}")));
}

/// Files named as planets in the current folder, or a folder data/vsop87d there, change nothing.
#[test]
fn the_current_folder_is_not_searched() {
    assert!(elsewhere().join("earth").is_file() && elsewhere().join("data/vsop87d/earth.txt").is_file());
    let list = printed(&[&["sun-list", "mercury"], &TRANSIT[..]].concat());
    assert!(list.contains("296 to 1439\n"), "{list}");
    assert!(list.contains(&told("mercury", "Mercury", &published_file("mercury"))), "{list}");
    assert!(list.contains(&told("earth", "Earth", &published_file("earth"))), "{list}");
    // Only a path or a prefix opens them.
    for word in ["./earth", "text:earth", "data/vsop87d/earth.txt"] {
        assert!(printed(&["check", word]).contains(": a good series of 2 terms, "), "{word}");
    }
    fails(
        &["check", "earth.txt"],
        2,
        "`earth.txt` is not a planet's name; a file is given with its path, as ./earth.txt",
    );
    fails(&["check", ""], 2, "`` is not a planet's name");
    fails(&["check", "text:"], 2, "`text:` wants a file name");
}

#[test]
fn folders_of_series() {
    let list = [&["sun-list", "mercury"], &TRANSIT[..]].concat();
    let folder = scratch("folder");
    std::fs::create_dir_all(&folder).unwrap();
    for planet in ["mercury", "earth"] {
        std::fs::write(folder.join(format!("{planet}.txt")), published(planet)).unwrap();
    }
    let earth = told("earth", "Earth", folder.join("earth.txt").to_str().unwrap());
    let named = run(&[&list[..], &["--data", folder.to_str().unwrap()]].concat());
    assert!(text(&named.stdout).contains(&earth), "{named:?}");
    let named = command(&list).env("STEPHYLAX_DATA", &folder).output().unwrap();
    assert!(text(&named.stdout).contains(&earth), "{named:?}");
    let empty = command(&list).env("STEPHYLAX_DATA", "").output().unwrap();
    assert!(text(&empty.stdout).contains(&published_file("earth")), "{empty:?}");
    let pluto = published_file("earth").replace("earth.txt", "pluto.txt");
    fails(&["check", "pluto"], 3, &format!("there is no planet `pluto`: {pluto} is not there"));
    fails(&["check", "venus", "--data", folder.to_str().unwrap()], 3, "there is no planet `venus`");
}

/// An installed command finds what was installed beside it, and not the folder that it was built from.
#[test]
fn an_installed_command() {
    let prefix = scratch("prefix");
    let data = prefix.join("share/stephylax/vsop87d");
    std::fs::create_dir_all(prefix.join("bin")).unwrap();
    std::fs::create_dir_all(&data).unwrap();
    let installed = prefix.join("bin/stephylax");
    let _ = std::fs::remove_file(&installed);
    std::fs::hard_link(env!("CARGO_BIN_EXE_stephylax"), &installed).unwrap();
    std::fs::copy(repository("data/vsop87d/venus.txt"), data.join("venus.txt")).unwrap();
    let run = |planet: &str| {
        let mut command = Command::new(&installed);
        command.args(["check", planet]).current_dir(elsewhere()).env_remove("STEPHYLAX_DATA").output().unwrap()
    };
    assert!(text(&run("venus").stdout).contains(&format!("from {}", data.join("venus.txt").display())));
    assert_eq!(run("earth").status.code(), Some(3));
}

/// Which of two series is refused is told.
#[test]
fn the_series_at_fault() {
    let bad = file("fault.packed", b"\x80\x00");
    let (planet, earth) = (format!("packed:{bad}"), published_file("earth"));
    for command in ["sun-list", "place"] {
        for words in
            [[command, "venus", "2019-11-11", "--earth", &planet], [command, &planet, "2019-11-11", "--earth", &earth]]
        {
            fails(&words, 1, "refused 10 (1)");
            assert!(says(&words, 1).ends_with(&format!("; {bad} was read as packed\n")));
        }
    }
}
