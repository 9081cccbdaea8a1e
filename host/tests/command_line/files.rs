//! Files that are read and written, and streams that fail.

use crate::common::published;
use crate::run::{
    command, fails, file, folder, names, printed, prints, published_file, run, run_with, scratch, text, Link,
};
use std::fs::File;
use std::process::Stdio;

const LIST: [&str; 5] = ["sun-list", "mercury", "2019-11-11", "--keep-out", "60"];

#[test]
fn files() {
    fails(&["check", "./no-such-file"], 3, "./no-such-file cannot be read");
    fails(&["check", "./data"], 3, "./data cannot be read");
    fails(&["check", "packed:earth"], 1, "refused");
    let large = scratch("large");
    File::create(&large).unwrap().set_len((64 << 20) + 1).unwrap();
    let path = large.to_str().unwrap();
    fails(&["check", path], 3, &format!("{path} is too large"));
    std::fs::remove_file(&large).unwrap();
    assert!(printed(&["check", "earth"]).starts_with("Earth: a good series of 2,425 terms, 37,786 bytes packed, "));
}

#[test]
fn packing_and_back() {
    let packed = scratch("venus.packed");
    let series = published("venus");
    let path = packed.to_str().unwrap();
    prints(&["pack", &published_file("venus"), path], "");
    assert!(printed(&["check", path]).starts_with("venus: a good series of 1,682 terms, 26,247 bytes packed, "));
    let back = run(&["unpack", path]);
    assert_eq!(back.stdout, series);
    let piped = run_with(&series, command(&["pack"]));
    assert_eq!(piped.stdout, std::fs::read(&packed).unwrap());
    let refused = run_with(b"05\n", command(&["pack"]));
    assert_eq!(refused.status.code(), Some(1));
    assert_eq!(refused.stdout, b"");
    assert!(text(&refused.stderr).starts_with("stephylax: refused 3 (1): the byte at offset 1"));
    let refused = run_with(b"\x80\x00", command(&["unpack"]));
    assert!(text(&refused.stderr).starts_with("stephylax: refused 10 (1)"));
    std::fs::remove_file(&packed).unwrap();
}

/// A file is written beside and renamed: a failure leaves the old one, a link stays a link, nothing else is left.
#[test]
fn files_are_replaced_whole() {
    let folder = folder("replaced");
    let (target, link) = (folder.join("target"), folder.join("link"));
    std::fs::write(&target, "old").unwrap();
    let _link = Link::to("target", link.clone());
    let bad = file("bad.txt", b"05\n");
    fails(&["pack", &bad, link.to_str().unwrap()], 1, "refused 3 (1)");
    assert_eq!(std::fs::read(&target).unwrap(), b"old");
    prints(&["pack", &published_file("venus"), link.to_str().unwrap()], "");
    assert_eq!(std::fs::read(&target).unwrap().len(), 26247);
    assert!(link.is_symlink());
    assert_eq!(names(&folder), ["link", "target"]);
    let missing = folder.join("missing/file");
    let path = missing.to_str().unwrap();
    fails(&["pack", &published_file("venus"), path], 3, &format!("{path} cannot be written"));
    prints(&["pack", &published_file("venus"), "/dev/null"], "");
}

/// A picture that cannot be written loses no list.
#[test]
fn a_failed_picture_leaves_the_list() {
    let list = printed(&LIST);
    for path in ["/no/such/folder/list.svg", "/dev/full", "./data"] {
        let output = run(&[&LIST[..], &["--svg", path]].concat());
        assert_eq!(text(&output.stdout), list);
        assert!(text(&output.stderr).starts_with(&format!("stephylax: {path} cannot be written")));
        assert_eq!(output.status.code(), Some(3), "{path}");
    }
}

/// A list and a picture that go to the same open file both stand in it.
#[test]
fn a_picture_after_the_list_in_one_stream() {
    let path = scratch("stream.txt");
    for name in ["/dev/stdout", path.to_str().unwrap()] {
        let both = File::options().create(true).write(true).truncate(true).open(&path).unwrap();
        let status = command(&[&LIST[..], &["--svg", name]].concat()).stdout(both).status().unwrap();
        assert_eq!(status.code(), Some(0));
        let text = std::fs::read_to_string(&path).unwrap();
        let (list, picture) = text.split_at(text.find("<svg").expect("a picture"));
        assert_eq!(list, printed(&LIST));
        assert!(picture.ends_with("</svg>\n"));
    }
}

/// Output that is not taken whole is no success.
#[test]
fn streams_that_fail() {
    for words in [&LIST[..], &[&LIST[..], &["--json"]].concat(), &["--help"], &["--version"], &["day", "2000-01-01"]] {
        let full = File::options().write(true).open("/dev/full").unwrap();
        let output = command(words).stdout(full).output().unwrap();
        assert_eq!(output.status.code(), Some(3), "{words:?}");
        assert!(text(&output.stderr).starts_with("stephylax: standard output cannot be written"));
        let (reader, writer) = std::io::pipe().unwrap();
        drop(reader);
        let output = command(words).stdout(Stdio::from(writer)).output().unwrap();
        assert_eq!(output.status.code(), Some(3), "{words:?}");
        assert_eq!(text(&output.stderr), "stephylax: standard output was closed before all was written\n");
    }
    // Where nobody can be told, the status still says it.
    let (reader, writer) = std::io::pipe().unwrap();
    drop(reader);
    let status = command(&["day", "2026-02-31"]).stderr(Stdio::from(writer)).status().unwrap();
    assert_eq!(status.code(), Some(1));
}

/// Closed from the start: what has nothing to print, or prints to a file, is answered. Thrown away is not closed.
#[test]
fn a_closed_stream() {
    let packed = scratch("closed.packed");
    let (venus, packed) = (published_file("venus"), packed.to_str().unwrap());
    let quiet = ["sun-list", "venus", "2019-11-11", "--minutes", "9", "--quiet"];
    for (words, status) in [(&["check", "venus"][..], 3), (&["--help"], 3), (&quiet, 4), (&["pack", &venus, packed], 0)]
    {
        let mut shell = std::process::Command::new("sh");
        shell.args(["-c", "exec \"$@\" >&-", "sh", env!("CARGO_BIN_EXE_stephylax")]).args(words);
        let output = shell.env_remove("STEPHYLAX_DATA").output().unwrap();
        assert_eq!(output.status.code(), Some(status), "{words:?}");
        let said = if status == 3 { "stephylax: standard output is closed\n" } else { "" };
        assert_eq!(text(&output.stderr), said, "{words:?}");
        let nowhere = command(words).stdout(Stdio::null()).status().unwrap();
        assert_eq!(nowhere.code(), Some(if status == 3 { 0 } else { status }), "{words:?}");
    }
}
