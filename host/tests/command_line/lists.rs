//! Sun lists.

use crate::run::{fails, file, printed, prints, radial, run, says, text};

const DAY: [&str; 5] = ["sun-list", "mercury", "2019-11-11", "--keep-out", "60"];
const HEAD: &str = "planet,first_minute,last_minute,first_td,last_td,minutes\n";

/// The rows of CSV below its `#` lines.
fn rows(words: &[&str]) -> String {
    let csv = printed(words);
    let (comments, rows) = csv.split_at(csv.find(HEAD).expect("a head"));
    assert!(comments.lines().all(|line| line.starts_with("# ")), "{csv}");
    rows[HEAD.len()..].to_string()
}

#[test]
fn table() {
    let list = printed(&DAY);
    let lines: Vec<&str> = list.lines().collect();
    assert_eq!(lines[0], "Mercury within 60 arcminutes (1°00′) of the Sun, 1,440 minutes from 2019-11-11 00:00 TD");
    assert_eq!(lines[2], "Mercury  2019-11-11 04:56  2019-11-11 23:59      1,144   296 to 1439");
    assert!(lines[3].starts_with("Mercury: 1 run, 1,144 of 1,440 minutes listed; separation 1.50° at the first, 0.86°"));
    assert!(
        lines[4..6] == ["Series:", lines[5]]
            && lines[5].starts_with("  Mercury: 6,827 terms, 103,809 bytes packed, fnv1a64 ")
    );
    assert!(lines[6].starts_with("  Earth: 2,425 terms, 37,786 bytes packed, fnv1a64 ") && lines.len() == 7, "{list}");
}

#[test]
fn csv() {
    assert_eq!(rows(&[&DAY[..], &["--csv"]].concat()), "Mercury,296,1439,2019-11-11T04:56,2019-11-11T23:59,1144\n");
    // A run that goes on from one day to the next is one run.
    let days = ["sun-list", "mercury", "2019-11-11", "--days", "2", "--keep-out=60", "--csv"];
    assert_eq!(rows(&days), "Mercury,296,1534,2019-11-11T04:56,2019-11-12T01:34,1239\n");
    let csv = printed(&days);
    let comments: Vec<&str> = csv.lines().take_while(|line| line.starts_with('#')).collect();
    assert_eq!(comments[1], "# minutes from 2019-11-11T00:00 TD: 2880; keep-out in arcminutes: 60");
    assert!(comments[2].starts_with("# Mercury: 6,827 terms, ") && comments[3].starts_with("# Earth: 2,425 terms, "));
}

/// Several planets are in one table, each with its own rows.
#[test]
fn several_planets() {
    let words = ["sun-list", "mercury", "venus", "2022-10-22", "--minutes", "60", "--keep-out", "120"];
    let one = |planet| rows(&["sun-list", planet, "2022-10-22", "--minutes", "60", "--keep-out", "120", "--csv"]);
    let both = rows(&[&words[..], &["--csv"]].concat());
    assert_eq!(both, one("mercury") + &one("venus"));
    assert_eq!(both, "Venus,0,59,2022-10-22T00:00,2022-10-22T00:59,60\n");
    let table = printed(&words);
    assert!(table.starts_with("Mercury, Venus within 120 arcminutes (2°00′) of the Sun, 60 minutes from "), "{table}");
    assert!(
        table.contains("Mercury: none of 60 minutes listed; ")
            && table.contains("Venus: 1 run, 60 of 60 minutes listed; ")
    );
    assert!(table.contains("\n  Mercury: 6,827 terms, ") && table.contains("\n  Venus: 1,682 terms, "));
}

/// 0 says that a minute is listed, 4 that none is.
#[test]
fn quiet() {
    prints(&[&DAY[..], &["--quiet"]].concat(), "");
    assert_eq!(says(&["sun-list", "venus", "2019-11-11", "--minutes", "9", "--quiet"], 4), "");
    prints(
        &["sun-list", "venus", "mercury", "2019-11-11", "12:00", "--minutes", "9", "--keep-out", "60", "--quiet"],
        "",
    );
    fails(&["sun-list", "venus", "2019-02-31", "--quiet"], 1, "refused 1 (3)");
}

#[test]
fn refusals() {
    // A window may be longer than the library's, and no planet is at fault.
    let bad = "stephylax: refused 12 (0): the keep-out angle is outside 60 to 2,700 arcminutes, or the window has no minute\n";
    for window in
        [["--keep-out=59", "--days=3"], ["--keep-out", "2701"], ["--minutes", "0"], ["--days", "0"], ["--days", "-3"]]
    {
        assert_eq!(says(&[&["sun-list", "mercury", "2019-11-11"], &window[..]].concat(), 1), bad);
    }
    fails(&["sun-list", "earth", "2019-11-11"], 1, "refused 11 (0)");
    // The last minute is asked for first; its instant is the figure, and the angle is judged before it.
    let (first, days) = (126_196_488_000_000_i64, 500);
    let last = first + (days * 1440 - 1) * 60_000;
    let long = ["sun-list", "mercury", "5999-01-04", "--days", "500"];
    prints(&["day", "5999-01-04", "00:00"], &format!("3912153\nt = {first} ms from 2000-01-01 12:00 TD\n"));
    let past = format!("the instant {last} ms is more than four millennia from 2000-01-01 12h TD");
    assert_eq!(says(&long, 1), format!("stephylax: refused 2 ({last}): {past}\n"));
    fails(&[&long[..], &["--keep-out", "2701"]].concat(), 1, "refused 12 (0)");
    for endless in ["9999999999999", "9223372036854775807"] {
        fails(&["sun-list", "mercury", "2019-11-11", "--days", endless], 2, "the window is too long to be counted");
    }
}

/// In a window of several days the figure of an unusable minute is counted from the window's start, and is the only one.
#[test]
fn an_unusable_minute_of_a_long_window() {
    let planet = file("shrinking.txt", radial("0.10014283000", "-50.00000000000").as_bytes());
    let earth = file("resting.txt", radial("1.00000000000", "0.00000000000").as_bytes());
    let words = ["sun-list", &planet, "2000-01-01", "12:00", "--days", "3", "--earth", &earth];
    let said = says(&words, 1);
    assert!(said.starts_with("stephylax: refused 11 (1503): the place is not usable"), "{said}");
    assert!(said.ends_with("; shrinking at 2000-01-02 13:03 TD\n"), "{said}");
    let short = ["sun-list", &planet, "2000-01-01", "12:00", "--minutes", "1503", "--earth", &earth];
    assert_eq!(run(&short).status.code(), Some(0));
}

/// Progress is for terminals alone, and leaves none of its line behind.
#[test]
fn progress() {
    let words = ["sun-list", "mercury", "2019-11-11", "--days", "12", "--csv"];
    assert!(!printed(&words).is_empty());
    // A terminal takes a few thousand bytes and then waits for its reader; its end is an error.
    let terminal = "import contextlib, os, pty, shutil, subprocess, sys\n\
        ours, theirs = pty.openpty()\n\
        child = subprocess.Popen(sys.argv[1:], stdout=subprocess.DEVNULL, stderr=theirs)\n\
        os.close(theirs)\n\
        with contextlib.suppress(OSError): shutil.copyfileobj(open(ours, 'rb', 0), sys.stdout.buffer)\n\
        sys.exit(child.wait())\n";
    let mut python = std::process::Command::new("python3");
    python.args(["-c", terminal, env!("CARGO_BIN_EXE_stephylax")]).args(words);
    let shown = python.output().expect("python3 runs");
    assert_eq!(shown.status.code(), Some(0), "{}", text(&shown.stderr));
    let shown = text(&shown.stdout);
    assert!(shown.contains("Mercury: ") && shown.contains(" of 12 days, ") && shown.ends_with("\r\x1b[K"), "{shown:?}");
}
