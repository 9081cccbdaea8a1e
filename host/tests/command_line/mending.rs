//! Damaged texts mended: what is written, what is told, and that the input is never overwritten.

use crate::common::published;
use crate::run::{
    command, fails, file, folder, names, printed, published_file, radial, run, run_with, says, scratch, text, Link,
};
use reference::layout;
use reference::plain::packed::parse;
use std::fs::File;
use std::path::{Path, PathBuf};
use std::process::Stdio;

/// A folder of this test run, with nothing in it but these files.
fn folder_of(name: &str, files: &[(&str, &[u8])]) -> PathBuf {
    let folder = folder(name);
    for (name, bytes) in files {
        std::fs::write(folder.join(name), bytes).unwrap();
    }
    folder
}

fn path(folder: &Path, name: &str) -> String {
    folder.join(name).to_str().unwrap().to_string()
}

/// The text of a body that rests, damaged in each way.
fn damaged() -> Vec<u8> {
    let clean = radial("1.00000000000", "0.00000000000");
    let mut lines: Vec<String> = clean.lines().map(String::from).collect();
    assert_eq!(lines.len(), 20);
    lines[0] += "\r";
    lines[1] += "\r";
    lines[2] += "\r";
    lines[4] += "  \t";
    lines[13] = lines[13].replace(' ', "\t");
    lines.insert(7, "\r ".to_string());
    lines.insert(9, String::new());
    (lines.join("\n") + "\n").into_bytes()
}

fn clean() -> Vec<u8> {
    radial("1.00000000000", "0.00000000000").into_bytes()
}

/// The changes of `damaged`, by their kinds.
const TOLD: &str = "  4 carriage returns dropped, lines 1 to 3 and 8
  3 spaces dropped, lines 5 and 8
  1 tab dropped, line 5
  2 blank lines dropped, lines 8 and 10
  2 tabs made spaces, line 16
";

/// What is told of the series, up to its checksum.
const GOOD: &str = "the clean text is a good series of 2 terms, 29 bytes packed, fnv1a64 ";

#[test]
fn a_file() {
    let folder = folder_of("mend", &[("damaged.txt", &damaged())]);
    let (from, to) = (path(&folder, "damaged.txt"), path(&folder, "clean.txt"));
    let said = printed(&["mend", &from, &to]);
    let wanted = format!("{from}: 12 changes, 120 bytes written to {to}\n{TOLD}{GOOD}");
    assert!(said.starts_with(&wanted) && said.ends_with(&format!(", from {from} (text)\n")), "{said}");
    assert_eq!(std::fs::read(&to).unwrap(), clean());
    assert_eq!(std::fs::read(&from).unwrap(), damaged());
    assert_eq!(names(&folder), ["clean.txt", "damaged.txt"]);
    // What is told of the series is what `check` tells of the clean file.
    let checked = printed(&["check", &to]);
    let sum = |said: &str| said.split("fnv1a64 ").nth(1).unwrap()[..16].to_string();
    assert_eq!(sum(&checked), sum(&said));
    // A clean text comes out as it is.
    let again = path(&folder, "again.txt");
    let said = printed(&["mend", &to, &again]);
    assert!(said.starts_with(&format!("{to}: no change, 120 bytes written to {again}\n{GOOD}")), "{said}");
    assert_eq!(std::fs::read(&again).unwrap(), clean());
}

/// On standard output the clean text stands alone; what is told goes to standard error.
#[test]
fn streams() {
    let from = file("mend-stream.txt", &damaged());
    let said = |file: &str, to: &str| format!("{file}: 12 changes, 120 bytes written to {to}\n{TOLD}{GOOD}");
    for output in [run(&["mend", &from]), run(&["mend", &from, "-"])] {
        assert_eq!((output.status.code(), output.stdout), (Some(0), clean()));
        assert!(text(&output.stderr).starts_with(&said(&from, "standard output")));
    }
    for words in [&["mend"][..], &["mend", "-"], &["mend", "text:-", "-"]] {
        let output = run_with(&damaged(), command(words));
        assert_eq!((output.status.code(), output.stdout), (Some(0), clean()));
        assert!(text(&output.stderr).starts_with(&said("standard input", "standard output")));
    }
    // The same where standard output is meant by a path.
    let path = scratch("mend-stream.out");
    for name in ["/dev/stdout", path.to_str().unwrap()] {
        let out = File::options().create(true).write(true).truncate(true).open(&path).unwrap();
        let output = command(&["mend", &from, name]).stdout(out).output().unwrap();
        assert_eq!(output.status.code(), Some(0), "{}", text(&output.stderr));
        assert_eq!(std::fs::read(&path).unwrap(), clean());
        assert!(text(&output.stderr).starts_with(&said(&from, name)));
    }
    let said = "the text and the changes cannot both go to standard output\n";
    fails(&["mend", &from, "/dev/stdout", "--changes", "-"], 2, said);
    fails(&["mend", &from, "-", "--changes", "/dev/stdout"], 2, said);
    // Output that is not taken whole is no success.
    let full = File::options().write(true).open("/dev/full").unwrap();
    let output = command(&["mend", &from]).stdout(full).output().unwrap();
    assert_eq!(output.status.code(), Some(3));
    assert!(text(&output.stderr).starts_with("stephylax: standard output cannot be written"));
}

#[test]
fn changes() {
    let folder = folder_of("mend-changes", &[("text", b"0 \n\n0\t0\r\n")]);
    let (from, to, list) = (path(&folder, "text"), path(&folder, "clean"), path(&folder, "list"));
    let said = says(&["mend", &from, "--dry-run", "--changes", "-"], 2);
    assert!(said.starts_with("stephylax: the text and the changes cannot both go to standard output\n"), "{said}");
    let output = run(&["mend", &from, &to, "--changes", &list]);
    assert_eq!(output.status.code(), Some(1));
    assert_eq!(std::fs::read(&list).unwrap(), b"1 0\n3 0\n5 1\n7 0\n");
    assert_eq!(std::fs::read(&to).unwrap(), b"0\n0 0\n");
    // Alone on standard output.
    let output = run(&["mend", &from, &to, "--changes", "-"]);
    assert_eq!(text(&output.stdout), "1 0\n3 0\n5 1\n7 0\n");
    assert!(text(&output.stderr).starts_with(&format!("{from}: 4 changes, 6 bytes written to {to}\n")));
    // A text without a change has a list without a line.
    let good = file("mend-good.txt", &clean());
    printed(&["mend", &good, &to, "--changes", &list]);
    assert_eq!((std::fs::read(&to).unwrap(), std::fs::read(&list).unwrap()), (clean(), Vec::new()));
    fails(&["mend", &from, &to, "--changes="], 2, "--changes wants a file");
    fails(&["mend", &from, &to, "--changes"], 2, "--changes wants a value");
}

#[test]
fn a_dry_run() {
    let folder = folder_of("mend-dry", &[("damaged.txt", &damaged()), ("bad.txt", b"05\r\n")]);
    let (from, to, list) = (path(&folder, "damaged.txt"), path(&folder, "to"), path(&folder, "list"));
    for words in [&["mend", &from, "--dry-run"][..], &["mend", &from, &to, "--changes", &list, "--dry-run"]] {
        let said = printed(words);
        assert!(said.starts_with(&format!("{from}: 12 changes, nothing is written\n{TOLD}{GOOD}")), "{said}");
    }
    let bad = path(&folder, "bad.txt");
    let output = run(&["mend", &bad, "--dry-run"]);
    let told = "1 change, nothing is written\n  1 carriage return dropped, line 1\nthe clean text is refused\n";
    assert_eq!((text(&output.stdout), output.status.code()), (format!("{bad}: {told}"), Some(1)));
    assert_eq!(names(&folder), ["bad.txt", "damaged.txt"]);
    assert_eq!(std::fs::read(&from).unwrap(), damaged());
}

/// A clean text that is refused is written all the same, and it is told where it is refused.
#[test]
fn a_refused_text() {
    let folder = folder_of("mend-refused", &[("bad.txt", b"\n1\r\n\n1.00000000000\t0.0x\n")]);
    let (from, to) = (path(&folder, "bad.txt"), path(&folder, "clean"));
    let output = run(&["mend", &from, &to]);
    assert_eq!(output.status.code(), Some(1));
    assert_eq!(std::fs::read(&to).unwrap(), b"1\n1.00000000000 0.0x\n");
    let told =
        "  2 blank lines dropped, lines 1 and 3\n  1 carriage return dropped, line 2\n  1 tab made a space, line 4\n";
    assert_eq!(
        text(&output.stdout),
        format!("{from}: 4 changes, 21 bytes written to {to}\n{told}the clean text is refused\n")
    );
    let at = format!("line 2, column 18 of the clean text, line 4 of {from}");
    assert_eq!(
        text(&output.stderr),
        format!("stephylax: refused 3 (19): the byte at offset 19 cannot continue its line; {at}\n")
    );
    // At its end, and after it.
    let early = run_with(b"0\r\n\r\n", command(&["mend"]));
    assert_eq!((early.status.code(), early.stdout), (Some(1), b"0\n".to_vec()));
    let said =
        "stephylax: refused 8 (2): the input ended too early, after 2 bytes; line 2, column 1 of the clean text, ";
    assert!(text(&early.stderr).ends_with(&format!("{said}line 3 of standard input\n")), "{}", text(&early.stderr));
    let late = run_with(&[clean(), b" \n\t0".to_vec()].concat(), command(&["mend", "-", "/dev/null"]));
    let said =
        "refused 9 (120): the byte at offset 120 follows the end of the series; line 21, column 1 of the clean text, ";
    assert!(text(&late.stderr).contains(&format!("{said}line 22 of standard input\n")), "{}", text(&late.stderr));
}

/// Many places are not all told.
#[test]
fn many_lines() {
    let text: String = (0..40).map(|i| if i % 3 == 0 { "0 \n" } else { "0\n" }).collect();
    let said = run_with(text.as_bytes(), command(&["mend", "-", "/dev/null"]));
    let told = String::from_utf8(said.stdout).unwrap();
    assert!(told.contains("\n  14 spaces dropped, lines 1, 4, 7, 10, 13, 16 and 8 others\n"), "{told}");
}

/// The three planets, as a mail program may leave them, come out as they were.
#[test]
fn planets() {
    for planet in ["mercury", "venus", "earth"] {
        let good = published(planet);
        let damaged = text(&good).replace('\n', " \r\n").replace("0 -", "0\t-");
        let output = run_with(damaged.as_bytes(), command(&["mend"]));
        assert_eq!(output.status.code(), Some(0), "{planet}");
        assert!(output.stdout == good, "{planet}");
    }
}

/// No output is the file that is read, by whatever path, link or stream, nor the other output; nothing is written then.
#[test]
fn the_input_is_not_overwritten() {
    let folder = folder_of("mend-over", &[("text", &damaged())]);
    let from = path(&folder, "text");
    let _link = Link::to("text", folder.join("link"));
    std::fs::hard_link(&from, folder.join("hard")).unwrap();
    let _self = Link::to(&folder, folder.join("self"));
    let _dangling = Link::to("nowhere", folder.join("dangling"));
    let there = names(&folder);
    let others = ["text", "link", "hard", "self/text", "self/link", "self/../mend-over/hard"];
    let read = |name: &str, from: &str| format!("{name} is the file that is read ({from}); it is never overwritten\n");
    for other in others.map(|name| path(&folder, name)) {
        fails(&["mend", &from, &other], 2, &read(&other, &from));
        fails(&["mend", &other, &from], 2, &read(&from, &other));
        fails(&["mend", &from, &path(&folder, "new"), "--changes", &other], 2, &read(&other, &from));
        fails(&["mend", &from, &other, "--dry-run"], 2, &read(&other, &from));
        fails(&["mend", &format!("text:{from}"), &other], 2, &read(&other, &from));
    }
    for (to, list) in [("new", "new"), ("new", "self/new"), ("self/self/new", "./new"), ("dangling", "self/dangling")] {
        let (to, list) = (path(&folder, to), path(&folder, list));
        let said = format!("the text and the changes cannot both go to one file: {to} and {list}\n");
        fails(&["mend", &from, &to, "--changes", &list], 2, &said);
    }
    fails(&["mend", &from, ""], 2, "the clean text wants a file");
    let said = "the text and the changes cannot both go to one file: mend-new and ./mend-new\n";
    fails(&["mend", &from, "mend-new", "--changes", "./mend-new"], 2, said);
    let (old, again) = (file("mend-old", b"old"), scratch("mend-old-again"));
    let _ = std::fs::remove_file(&again);
    std::fs::hard_link(&old, &again).unwrap();
    fails(&["mend", &from, &old, "--changes", again.to_str().unwrap()], 2, "the text and the changes cannot both go");
    assert_eq!(std::fs::read(&old).unwrap(), b"old");
    // Standard input and standard output may be the file too.
    let stdin = || Stdio::from(File::open(&from).unwrap());
    let output = command(&["mend", "-", &from]).stdin(stdin()).output().unwrap();
    assert_eq!(output.status.code(), Some(2));
    assert!(text(&output.stderr).starts_with(&format!("stephylax: {}", read(&from, "standard input"))));
    for words in [
        &["mend", &from][..],
        &["mend", &from, "/dev/stdout"],
        &["mend", &from, "/dev/null"],
        &["mend", &from, "--dry-run"],
    ] {
        let out = File::options().append(true).open(&from).unwrap();
        let output = command(words).stdout(out).output().unwrap();
        assert_eq!(output.status.code(), Some(2), "{words:?}");
        assert!(text(&output.stderr).contains("is the file that is read"), "{words:?}: {}", text(&output.stderr));
    }
    assert_eq!(names(&folder), there);
    assert_eq!(std::fs::read(&from).unwrap(), damaged());
    // What is no file can be both: nothing is overwritten.
    let output = command(&["mend", "-", "/dev/null", "--changes", "/dev/null"]).output().unwrap();
    assert_eq!(output.status.code(), Some(1));
}

/// A file that cannot be written leaves the old one, and nothing beside it.
#[test]
fn files_are_replaced_whole() {
    let folder = folder_of("mend-whole", &[("text", &damaged()), ("old", b"old")]);
    let (from, missing) = (path(&folder, "text"), path(&folder, "missing/file"));
    fails(&["mend", &from, &missing], 3, &format!("{missing} cannot be written"));
    let output = run(&["mend", &from, &path(&folder, "old"), "--changes", &missing]);
    assert_eq!(output.status.code(), Some(3));
    assert!(text(&output.stderr).starts_with(&format!("stephylax: {missing} cannot be written")));
    assert_eq!(std::fs::read(folder.join("old")).unwrap(), clean());
    let none = path(&folder, "none");
    fails(&["mend", &none, &path(&folder, "old")], 3, &format!("{none} cannot be read"));
    assert_eq!(names(&folder), ["old", "text"]);
}

/// Mending is for texts; what is none is left alone, unless it is told to be one.
#[test]
fn other_kinds() {
    let mut packed = vec![0; 40_000];
    let length = stephylax::read_text(&published("venus"), &mut packed).unwrap();
    packed.truncate(length);
    let of_columns = layout::published(&parse(&packed).unwrap());
    let to = scratch("mend-kind.out");
    let _ = std::fs::remove_file(&to);
    let to = to.to_str().unwrap();
    for (kind, bytes) in [("packed", &packed), ("published", &of_columns)] {
        let from = file(&format!("mend-kind.{kind}"), bytes);
        let said = format!("and mend is for texts (text:{from} is taken for one whatever it holds)\n");
        fails(&["mend", &from, to], 2, &format!("{from} was read as {kind}, {said}"));
        fails(&["mend", &format!("{kind}:{from}"), to], 2, &format!("`{kind}:{from}` is no text, {said}"));
        assert!(!Path::new(to).exists());
        let forced = run(&["mend", &format!("text:{from}"), to]);
        assert_eq!(forced.status.code(), Some(1), "{kind}");
        assert_eq!(std::fs::read(to).unwrap(), stephylax::mended(bytes).text);
        std::fs::remove_file(to).unwrap();
    }
    fails(&["mend", "text:"], 2, "`text:` wants a file name");
    // A bare name is a file, as for `pack`.
    assert_eq!(run(&["mend", "earth"]).stdout, clean());
    assert!(printed(&["mend", &published_file("venus"), "--dry-run"]).contains(": no change, nothing is written\n"));
}

/// Where a text is refused, every command says whether mending would help, and only then.
#[test]
fn hints() {
    let hint = "Mended, it is a good series: stephylax mend FILE NEW\n";
    let returns = "Its lines end with carriage returns. Take them out: tr -d '\\r' < FILE > NEW\n";
    let good = text(&clean());
    let damaged = [
        text(&damaged()),
        good.replace('\n', "\r\n"),
        good.replace('\n', " \n"),
        good.replace('\n', "\n\n"),
        good.replace("0 0", "0\t0"),
        format!("{good}\n"),
        format!("\n{good}"),
    ];
    let to = scratch("mend-hint.packed");
    for (i, damaged) in damaged.iter().enumerate() {
        let from = file(&format!("mend-hint-{i}.txt"), damaged.as_bytes());
        for words in [
            &["check", &from][..],
            &["pack", &from, to.to_str().unwrap()],
            &["coordinates", &from, "2019-11-11"],
            &["place", &from, "2019-11-11"],
            &["sun-list", "venus", "2019-11-11", "--earth", &from],
        ] {
            let said = says(words, 1);
            assert!(
                said.starts_with("stephylax: refused ") && said.ends_with(&format!("read as text\n{hint}")),
                "{said}"
            );
        }
    }
    // The same of a planet's text in a folder.
    let folder = folder_of("mend-hint", &[("mars.txt", damaged[1].as_bytes())]);
    assert!(says(&["check", "mars", "--data", folder.to_str().unwrap()], 1).ends_with(hint));
    // What is refused mended too has no such line; that carriage returns are in the way is still told.
    for (bad, more) in [
        ("05\n".to_string(), ""),
        (good.replace("1.0", "x.0"), ""),
        (good[..good.len() - 1].to_string(), ""),
        (format!("{good} "), ""),
        ("\r\n".to_string(), ""),
        (good.replace("1.0", "x.0").replace('\n', "\r\n"), returns),
    ] {
        let said = text(&run_with(bad.as_bytes(), command(&["check", "-"])).stderr);
        assert!(said.ends_with(&format!("; standard input was read as text\n{more}")), "{said}");
    }
}
