//! Published VSOP87D files, as they come.

use crate::common::published;
use crate::run::{
    command, fails, fails_with, file, folder, printed, prints, radial, run, run_with, says, scratch, text, WIDE,
};
use reference::layout;
use reference::plain::packed::parse;

const TRANSIT: [&str; 3] = ["2019-11-11", "--keep-out", "60"];
const EIGHT: [(&str, &str); 8] = [
    ("mercury", "mer"),
    ("venus", "ven"),
    ("earth", "ear"),
    ("mars", "mar"),
    ("jupiter", "jup"),
    ("saturn", "sat"),
    ("uranus", "ura"),
    ("neptune", "nep"),
];

/// A planet's series, packed.
fn packed(planet: &str) -> Vec<u8> {
    let mut packed = vec![0; 120_000];
    let length = stephylax::read_text(&published(planet), &mut packed).unwrap();
    packed.truncate(length);
    packed
}

/// The same as it is published.
fn laid_out(planet: &str) -> Vec<u8> {
    layout::published(&parse(&packed(planet)).unwrap())
}

/// From two published files to a Sun list, told by a word or by their first lines.
#[test]
fn list_of_published_files() {
    let (mercury, earth) = (file("VSOP87D.mer", &laid_out("mercury")), file("VSOP87D.ear", &laid_out("earth")));
    let word = |path: &str| format!("published:{path}");
    for (planet, sun) in [(mercury.clone(), earth.clone()), (word(&mercury), word(&earth))] {
        let words = [&["sun-list", &planet], &TRANSIT[..], &["--earth", &sun]].concat();
        let list = printed(&words);
        assert!(list.contains("296 to 1439\n") && list.starts_with("VSOP87D.mer within 60 arcminutes"), "{list}");
        assert!(list.contains(&format!("from {mercury} (published)\n")), "{list}");
        assert!(list.contains(&format!("from {earth} (published)\n")), "{list}");
        let csv = printed(&[&words[..], &["--csv"]].concat());
        assert!(csv.contains("# VSOP87D.mer: 6,827 terms, 103,809 bytes packed, ") && csv.contains("(published)\n"));
        let json = printed(&[&words[..], &["--json"]].concat());
        assert_eq!(json.matches(r#""kind": "published""#).count(), 2, "{json}");
    }
}

/// The checksum is that of the packed bytes, from whatever form; only the kind and the file differ.
#[test]
fn kinds_are_told() {
    let venus = laid_out("venus");
    let told = "a good series of 1,682 terms, 26,247 bytes packed, fnv1a64 ";
    let path = file("venus.pub", &venus);
    let of_text = printed(&["check", "venus"]);
    let sum = &of_text.split("fnv1a64 ").nth(1).unwrap()[..16];
    prints(&["check", &path], &format!("venus: {told}{sum}, from {path} (published)\n{WIDE}"));
    prints(&["check", &format!("published:{path}")], &format!("venus: {told}{sum}, from {path} (published)\n{WIDE}"));
    for word in ["-", "published:-"] {
        let output = run_with(&venus, command(&["check", word]));
        assert_eq!(
            text(&output.stdout),
            format!("standard input: {told}{sum}, from standard input (published)\n{WIDE}")
        );
    }
    fails(&["check", &format!("text:{path}")], 1, "refused 3 (0)");
    fails(&["check", &format!("packed:{path}")], 1, "refused ");
    fails(&["check", "published:"], 2, "`published:` wants a file name");
    fails(&["sun-list", "published:-", "-"], 2, "standard input can be one series only");
    // Nothing at all is a published file of eighteen empty blocks; it is taken for a text unless it is told.
    let empty = run_with(b"", command(&["check", "published:-"]));
    assert!(text(&empty.stdout).starts_with("standard input: a good series of 0 terms, 18 bytes packed, "));
}

/// The first line decides: digits in columns 18, 42 and 60, and a number on the right of columns 61 to 67.
#[test]
fn a_first_line() {
    let heading = layout::heading(0, 1).line;
    let taken_for = |line: &[u8]| {
        let said = text(&run_with(&[line, b"\nx"].concat(), command(&["check", "-"])).stderr);
        said.trim_end().rsplit(' ').next().unwrap().to_string()
    };
    assert_eq!(taken_for(&heading), "published");
    assert_eq!(taken_for(&heading[..67]), "published");
    assert_eq!(taken_for(&heading[..66]), "text");
    for (column, byte) in [(18, b'D'), (42, b' '), (60, b'x'), (67, b' '), (61, b'\t'), (66, b'-')] {
        let mut line = heading.clone();
        line[column - 1] = byte;
        assert_eq!(taken_for(&line), "text", "column {column}");
    }
    // A wrong version, and bytes that no text has, are a published file's own matter.
    let mut line = heading.clone();
    (line[0], line[17], line[131]) = (0, b'3', 7);
    assert_eq!(taken_for(&line), "published");
}

/// A folder of the eight published files is all that is needed.
#[test]
fn a_folder_of_published_files() {
    let folder = folder("eight");
    let path = folder.to_str().unwrap();
    for (planet, ending) in EIGHT {
        let content = if ["mercury", "venus", "earth"].contains(&planet) { planet } else { "venus" };
        std::fs::write(folder.join(format!("VSOP87D.{ending}")), laid_out(content)).unwrap();
    }
    for (planet, ending) in EIGHT {
        let said = printed(&["check", planet, "--data", path]);
        assert!(said.ends_with(&format!(", from {path}/VSOP87D.{ending} (published)\n{WIDE}")), "{said}");
    }
    let words = [&["sun-list", "mercury", "mars"], &TRANSIT[..]].concat();
    let list = printed(&[&words[..], &["--data", path]].concat());
    assert!(list.starts_with("Mercury, Mars within") && list.contains("296 to 1439\n"), "{list}");
    let named = command(&words).env("STEPHYLAX_DATA", &folder).output().unwrap();
    assert_eq!(text(&named.stdout), list);
    let place = printed(&["place", "neptune", "2005-01-01", "--data", path]);
    assert!(place.starts_with("Neptune, apparent place, ") && place.contains("/VSOP87D.nep (published)\n"), "{place}");
    // A text goes before the published file.
    std::fs::write(folder.join("mercury.txt"), radial("0.40000000000", "0.00000000000")).unwrap();
    let said = printed(&["check", "mercury", "--data", path]);
    assert!(said.ends_with(&format!(", from {path}/mercury.txt (text)\n{WIDE}")), "{said}");
    let mixed = printed(&["place", "mercury", "2005-01-01", "--data", path]);
    assert!(mixed.contains("/mercury.txt (text)\n") && mixed.contains("/VSOP87D.ear (published)\n"), "{mixed}");
    std::fs::remove_file(folder.join("VSOP87D.sat")).unwrap();
    let missing = format!("there is no planet `saturn`: neither {path}/saturn.txt nor {path}/VSOP87D.sat is there");
    fails(&["check", "saturn", "--data", path], 3, &missing);
    fails(
        &["check", "pluto", "--data", path],
        3,
        &format!("there is no planet `pluto`: {path}/pluto.txt is not there"),
    );
}

/// Carriage returns are refused, and it is told what to do.
#[test]
fn carriage_returns() {
    let hint = "Its lines end with carriage returns. Take them out: tr -d '\\r' < FILE > NEW\n";
    let with_returns = |bytes: &[u8]| text(bytes).replace('\n', "\r\n").into_bytes();
    let (venus, plain) = (laid_out("venus"), published("venus"));
    let heading = venus.iter().position(|&byte| byte == b'\n').unwrap();
    // The published records end with a space after c; the return follows it.
    let at = heading + 2 + 132;
    let path = file("returns.ven", &with_returns(&venus));
    let said = format!("the byte at offset {at} cannot continue its line; {path} was read as published");
    assert_eq!(says(&["check", &path], 1), format!("stephylax: refused 3 ({at}): {said}\n{hint}"));
    let packed = scratch("returns.packed");
    assert!(says(&["pack", &path, packed.to_str().unwrap()], 1).ends_with(hint));
    // A text is mended instead.
    let mend = "read as text\nMended, it is a good series: stephylax mend FILE NEW\n";
    assert!(says(&["check", &file("returns.txt", &with_returns(&plain))], 1).ends_with(mend));
    let json = run(&["check", &path, "--json"]);
    assert!(text(&json.stderr).ends_with(hint) && !text(&json.stdout).contains("tr -d"), "{json:?}");
    // Another byte, or a return within a line, has no such remedy.
    let mut damaged = venus.clone();
    damaged[heading + 1 + 90] = b'\r';
    // Nor has one after half a term, which is refused with its line feed too.
    let mut short = with_returns(&venus);
    short.drain(at - 6..at);
    for input in [damaged, short, b"1\n0.5\r\n".to_vec(), b"\r\n".to_vec()] {
        let said = text(&run_with(&input, command(&["check", "-"])).stderr);
        assert!(said.starts_with("stephylax: refused 3 ") && said.lines().count() == 1, "{said}");
    }
}

#[test]
fn refusals() {
    let heading = layout::heading(0, 1).line;
    let feed = heading.len();
    let file = |more: &[u8]| [&heading, b"\n".as_slice(), more].concat();
    let wrong = [&heading[..17], b"3", &heading[18..], b"\n"].concat();
    let at = format!(
        "refused 13 ({feed}): the heading that ends at offset {feed} is out of order, of no block, or not of version 4"
    );
    fails_with(&wrong, &["check", "-"], 1, &at);
    let term = format!("{:10}{:69}{:>18}{:>14}{:>20}\n", 2, "", "1.00000000000", "0.00000000000", "0.00000000000");
    let at = feed + term.len();
    let said = format!("refused 14 ({at}): the running number of the line that ends at offset {at} does not come next");
    fails_with(&file(term.as_bytes()), &["check", "-"], 1, &said);
    let short = file(b"");
    let said = format!("refused 8 ({0}): the input ended too early, after {0} bytes; standard input", short.len());
    fails_with(&short, &["check", "-"], 1, &said);
}

/// The refusals that a text has too, each at the last byte of its file.
#[test]
fn refusals_as_of_texts() {
    let zero = "0.00000000000";
    let heading = |block, count| [&layout::heading(block, count).line, b"\n".as_slice()].concat();
    let term = |number: usize, a: &str, c: &str| format!("{number:10}{:69}{a:>18}{zero:>14}{c:>20}\n", "").into_bytes();
    let large = "99999.00000000000";
    let files = [
        (3, [heading(0, 1), term(1, "1.0000000000x", zero)[..97].to_vec()].concat()),
        (3, [heading(0, 1), term(1, large, zero)[..97].to_vec(), b"\n".to_vec()].concat()),
        (4, heading(0, 4097)),
        (4, [heading(0, 1), term(1, "100000.00000000000", zero)].concat()),
        (5, [heading(0, 2), term(1, large, zero), term(2, large, zero)].concat()),
        (6, [heading(0, 1), term(1, "9999.00000000000", "1.00000000000")].concat()),
        (9, [heading(17, 1), term(1, large, zero), b"\n".to_vec()].concat()),
    ];
    for (number, file) in files {
        let said = text(&run_with(&file, command(&["check", "-"])).stderr);
        let wanted = format!("stephylax: refused {number} ({}): ", file.len() - 1);
        assert!(said.starts_with(&wanted) && said.ends_with("; standard input was read as published\n"), "{said}");
    }
}

/// `pack` takes a published file by its first line, or as it is told.
#[test]
fn packing() {
    let wanted = packed("earth");
    let (published_path, text_path) = (file("pack.ear", &laid_out("earth")), file("pack.txt", &published("earth")));
    let to = scratch("pack.packed");
    let kinds = [
        (published_path.clone(), "published"),
        (format!("published:{published_path}"), "published"),
        (text_path.clone(), "text"),
        (format!("text:{text_path}"), "text"),
    ];
    for (word, kind) in kinds {
        let json = printed(&["pack", &word, to.to_str().unwrap(), "--json"]);
        assert!(json.contains(&format!(r#""kind": "{kind}""#)), "{json}");
        assert_eq!(std::fs::read(&to).unwrap(), wanted, "{word}");
    }
    let found = run(&["pack", &published_path, to.to_str().unwrap()]);
    assert_eq!(text(&found.stderr), format!("stephylax: {published_path} was read as published\n"));
    assert_eq!(printed(&["pack", &text_path, to.to_str().unwrap()]), "");
    assert_eq!(run_with(&laid_out("earth"), command(&["pack"])).stdout, wanted);
    assert_eq!(run_with(&laid_out("earth"), command(&["pack", "published:-"])).stdout, wanted);
    assert_eq!(run(&["unpack", to.to_str().unwrap()]).stdout, published("earth"));
    fails(&["pack", "packed:x"], 2, "`packed:x` is packed already");
    fails(&["pack", &format!("text:{published_path}")], 1, "refused 3 (0)");
}
