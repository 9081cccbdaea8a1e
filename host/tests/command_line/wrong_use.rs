//! Words that do not make a command.

use crate::run::{fails, printed, says};

#[test]
fn words() {
    fails(&[], 2, "which command?");
    fails(&["dance"], 2, "there is no command `dance`");
    fails(&["day"], 2, "the form is");
    fails(&["date", "many"], 2, "day number");
    fails(&["day", "2026-11-15", "--fast"], 2, "this command has no option --fast");
    fails(&["sun-list"], 2, "the form is");
    fails(&["sun-list", "2026-11-15", "venus"], 2, "the form is");
    fails(&["place", "mercury", "venus"], 2, "the form is");
    fails(&["check", "venus", "earth"], 2, "the form is");
    fails(&["date"], 2, "the form is: stephylax date DAY_NUMBER, or stephylax date --t MILLISECONDS\n");
}

/// Wrong use tells the whole form of a command, as the help has it, with every option that the command takes.
#[test]
fn forms() {
    let help = printed(&["--help"]);
    let lists = "sun-list PLANET.. [DATE [TIME]] [--days N | --minutes N] [--keep-out ARCMINUTES] [--earth SERIES] \
        [--data FOLDER] [--csv | --json | --quiet] [--svg FILE]";
    let places = "place PLANET [DATE [TIME]] [--every STEP [--days N | --minutes N]] [--earth SERIES] [--data FOLDER] \
        [--mount] [--csv | --json]";
    let with_data = ["coordinates SERIES [DATE [TIME]] [--data FOLDER]", "check SERIES [--data FOLDER]"];
    let others = [
        "day DATE [TIME]",
        "pack [FILE [PACKED_FILE]]",
        "unpack [PACKED_FILE [TEXT_FILE]]",
        "mend [FILE [CLEAN_FILE]] [--changes FILE] [--dry-run]",
    ];
    let words = help.split_ascii_whitespace().collect::<Vec<&str>>().join(" ");
    for form in [lists, places].iter().chain(&with_data).chain(&others) {
        let command = form.split(' ').next().unwrap();
        let wrong: &[&str] = if ["pack", "unpack", "mend"].contains(&command) { &["a", "b", "c"] } else { &[] };
        fails(&[&[command], wrong].concat(), 2, &format!("the form is: stephylax {form}\n"));
        assert!(words.contains(&format!("stephylax {form} ")), "{form}");
        let data = says(&[command, "--data", "."], 2).contains("this command has no option --data");
        assert_eq!(data, !form.contains("--data"), "{form}");
    }
}

/// A planet is listed once.
#[test]
fn a_planet_twice() {
    fails(&["sun-list", "venus", "mercury", "Venus", "2019-11-11"], 2, "`Venus` is named twice\n");
    fails(&["sun-list", "./earth", "./earth"], 2, "`./earth` is named twice\n");
    printed(&["sun-list", "venus", "./mercury", "mercury", "2019-11-11", "--minutes", "1", "--earth", "earth"]);
}

#[test]
fn options() {
    fails(&["sun-list", "mercury", "--days"], 2, "--days wants a value");
    fails(&["sun-list", "mercury", "--svg", "--csv"], 2, "--svg wants a value");
    fails(&["sun-list", "mercury", "--svg="], 2, "--svg wants a file");
    fails(&["sun-list", "mercury", "--data="], 2, "--data wants a folder");
    fails(&["sun-list", "mercury", "--csv", "--csv"], 2, "--csv is given twice");
    fails(&["sun-list", "mercury", "--days", "1", "--minutes", "2"], 2, "give --days or --minutes, not both");
    fails(&["sun-list", "mercury", "--csv", "--quiet"], 2, "give --csv or --quiet, not both");
    fails(&["place", "mercury", "--days", "2"], 2, "--days wants --every STEP");
    for step in ["10", "m", "0m", "-1m", "1.5h", "10min", "+1d", "9223372036854775807d"] {
        fails(&["place", "mercury", "--every", step], 2, &format!("--every: `{step}` is not a step"));
    }
    fails(
        &["place", "mercury", "--every", "1s", "--days", "12"],
        2,
        "these are 1,036,800 places; 1 to 1,000,000 can be given",
    );
    fails(&["place", "mercury", "--every", "1s", "--days", "0"], 2, "these are 0 places");
}

/// Two things never share standard output, nor standard input.
#[test]
fn one_thing_on_each_stream() {
    for form in ["--csv", "--quiet"] {
        let words = ["sun-list", "mercury", "2019-11-11", "--svg", "-", form];
        fails(&words, 2, &format!("--svg - and {form} do not go together"));
    }
    fails(&["sun-list", "-", "2019-11-11", "--earth", "-"], 2, "standard input can be one series only");
    fails(&["sun-list", "text:-", "packed:-"], 2, "standard input can be one series only");
    fails(&["place", "-", "2019-11-11", "--earth", "text:-"], 2, "standard input can be one series only");
}

#[test]
fn help() {
    for words in [["--help"], ["-h"], ["help"]] {
        let help = printed(&words);
        for command in
            ["day", "date", "pack", "unpack", "mend", "check", "coordinates", "place", "sun-list", "--version"]
        {
            assert!(help.contains(&format!("\n  stephylax {command}")), "{command}");
        }
        assert!(help.lines().all(|line| line.len() <= 120));
    }
}

/// The version, and what is known of the toolchain and the commit.
#[test]
fn version() {
    let version = printed(&["--version"]);
    let lines: Vec<&str> = version.lines().collect();
    assert_eq!(lines[0], concat!("stephylax ", env!("CARGO_PKG_VERSION")));
    assert!(lines.len() == 3 && lines[1].starts_with("toolchain: ") && lines[2].starts_with("commit: "), "{version}");
    let identity = option_env!("STEPHYLAX_TOOLCHAIN").unwrap_or("not known");
    assert_eq!(lines[1], format!("toolchain: {identity}"));
}
