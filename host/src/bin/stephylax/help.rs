//! The help text. docs/COMMANDS.md says more on every form of output.

use crate::failure::Failure;

/// What the forms of commands begin with, and how far the lines are indented at least that go on with one.
const FORM: &str = "  stephylax ";
const GOES_ON: &str = "            ";

/// The forms of a command, as the help has them.
fn forms(command: &str) -> Vec<String> {
    let mut forms: Vec<String> = Vec::new();
    let mut its = false;
    for line in HELP.lines() {
        if let Some(form) = line.strip_prefix(FORM) {
            its = form.split(' ').next() == Some(command);
            forms.extend(its.then(|| form.to_string()));
        } else if let (true, Some(form)) = (its && line.starts_with(GOES_ON), forms.last_mut()) {
            *form += &format!(" {}", line.trim_start());
        }
    }
    forms
}

/// The words of a command are not of its form.
pub fn wrong_form(command: &str) -> Failure {
    Failure::Use(format!("the form is: stephylax {}", forms(command).join(", or stephylax ")))
}

pub const HELP: &str = "\
stephylax: places of planets, and the minutes when one stands too near the Sun, from a proved library.

  stephylax sun-list PLANET.. [DATE [TIME]] [--days N | --minutes N] [--keep-out ARCMINUTES]
                     [--earth SERIES] [--data FOLDER] [--csv | --json | --quiet] [--svg FILE]
      The runs of minutes at which a planet is within the keep-out angle of the Sun, seen from Earth. No such minute is
      missing, and none listed is more than two arcminutes farther out. One day and 600 arcminutes (10 degrees) unless
      told otherwise; the angle may be 60 to 2,700. --csv prints a table for programs; --quiet prints nothing and
      answers by its exit status; --svg draws the separation over the window, with the listed minutes and the keep-out
      angle, a band for each planet, after the list is printed (`-`: instead of the list, to standard output).
  stephylax place PLANET [DATE [TIME]] [--every STEP [--days N | --minutes N]] [--earth SERIES]
                  [--data FOLDER] [--mount] [--csv | --json]
      The apparent place, in the frame of the star catalogues (FK5): right ascension, declination and distance. --every
      gives one at each step (30s, 10m, 6h, 1d) of a day, or of as many days or minutes as told. --mount prints the
      three doubles that a mount takes (degrees, degrees, AU), a line for each place. Coordinates and Sun lists are in
      the frame of the theory instead.
  stephylax coordinates SERIES [DATE [TIME]] [--data FOLDER]
      Heliocentric longitude, latitude and radius.
  stephylax day DATE [TIME]
      The noon day number of a date; with a time also the instant t.
  stephylax date DAY_NUMBER
  stephylax date --t MILLISECONDS
      The date of a day number, or of an instant t.
  stephylax pack [FILE [PACKED_FILE]]
  stephylax unpack [PACKED_FILE [TEXT_FILE]]
      Between a series, as a text or as published, and its packed form. Standard input and output unless told
      otherwise; `pack` and `unpack` take plain file names, `pack` also text:FILE and published:FILE, and no planet's
      name.
  stephylax mend [FILE [CLEAN_FILE]] [--changes FILE] [--dry-run]
      A clean copy of a text that a mail program has damaged: carriage returns, tabs and spaces before a line feed are
      dropped, and blank lines; other tabs become spaces. Tells what was changed in which lines, and whether the clean
      text is accepted. Standard input and output unless told otherwise; plain file names, or text:FILE. --changes
      writes the offset of each change and 0 (dropped) or 1 (a tab made a space), a line each; --dry-run writes nothing
      and only tells. No file is written over the one that is read.
  stephylax check SERIES [--data FOLDER]
      How many terms a series has and whether it is good for four millennia or for two, or why it is refused.
  stephylax --version
      The version, and the toolchain and the commit that it was built with.

Every command takes --json: the answer or the refusal, the window, the sources and the version, in one form.

PLANET and SERIES: a planet's name, as mercury, venus or earth, or a file. A file is text:FILE, packed:FILE,
published:FILE (VSOP87D as it is published), a path with a `/` in it (./venus), or `-` for standard input; the last two
are read as published if their first line has the columns of a heading, else as text unless they have a control byte
that no text has. Names are looked up in --data FOLDER, else in the folder STEPHYLAX_DATA, else in
share/stephylax/vsop87d beside the command's bin, else in the data/vsop87d that it was built from; never in the current
folder. There a planet is its text, mercury.txt, else its published file, VSOP87D.mer (and so on: ven ear mar jup sat
ura nep).
DATE: 2026-11-15, its year with four digits and a sign if need be (-0044-03-15), in the Julian calendar through
1582-10-04, years from -4712 to 9999 (the year 0 exists); today if left out. TIME: 18:30, 18:30:05 or 18:30:05.250,
else 00:00; DATE and TIME may be joined by a T. `now` stands for both: the second of the system's clock.
All times are TD (dynamical time), which is 69.184 seconds ahead of UTC since 2017: `now` is put ahead by 69 seconds,
today is the day of UTC. t is in milliseconds of TD from 2000-01-01 12h, at most four millennia away (-2001-12-19 12h
to 6000-01-31 12h); beyond two millennia only where the series are good for that, which `check` tells.

Exit status: 0 answered; 1 refused; 2 wrong use; 3 a file, or standard output, could not be read or written whole;
4 (sun-list --quiet alone) no minute is listed, where 0 says that at least one is.
A refusal is printed with its number, its figure in brackets and a sentence:
   1 the date does not exist (1 year, 2 month, 3 day, 4 time; 5 day number)
   2 the instant passes its limit (the instant)
   3 a byte of a text or a published file cannot continue its line (offset)
   4 a number or count passes its limit (offset)          5 a block's amplitudes total too much (offset)
   6 the series is too coarse (offset)                    7 the output does not fit (length, or offset)
   8 the input ended too early (its length)               9 a byte follows the series (offset)
  10 a packed number is not shortest (offset)            11 a place is not usable (minute of the window, else 0)
  12 keep-out outside 60 to 2,700 arcminutes, or no minutes in the window
  13 a heading is wrong or out of order (offset)         14 a running number is wrong (offset)
  17 the instant is beyond two millennia, and a series is not good for that (the instant)
";
