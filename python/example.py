"""When does an open tube have to be shut? For each planet, the times of a day (TD) at which it stands too near the Sun.

    python3 example.py [YEAR-MONTH-DAY [KEEP_OUT_ARCMINUTES [FOLDER_OF_SERIES]]]
"""

import datetime
import pathlib
import sys

# Installed, this file stands beside the folder of the module, unless that went among other packages.
HERE = pathlib.Path(__file__).resolve().parent
sys.path.append(str(HERE / "python"))

import stephylax


def folder():
    """The published series: of the repository, or of the prefix that this file is installed under."""
    paths = (HERE.parent / "data" / "vsop87d", HERE / "vsop87d")
    found = next((path for path in paths if path.is_dir()), None)
    return found or sys.exit(f"the series are not in {paths[0]} nor in {paths[1]}: give their folder as the third word")


def load(data, name):
    """A planet's packed series: from its text, else from its published file."""
    text = data / f"{name}.txt"
    if text.is_file():
        return stephylax.read_text(text.read_bytes())
    return stephylax.read_published((data / f"VSOP87D.{name[:3]}").read_bytes())


def today():
    """The day of UTC."""
    return datetime.datetime.now(datetime.timezone.utc).date()


def clock(minute):
    return f"{minute // 60:02}:{minute % 60:02}"


def main(words):
    day = [int(field) for field in words[0].split("-")] if words else today()
    keep_out = int(words[1]) if len(words) > 1 else 600
    data = pathlib.Path(words[2]) if len(words) > 2 else folder()
    series = {name: load(data, name) for name in ("mercury", "venus", "earth")}
    start = stephylax.instant_of_date(day)
    for name in ("mercury", "venus"):
        runs = stephylax.sun_list(series[name], series["earth"], start, 1440, keep_out)
        times = ", ".join(f"from {clock(run.first)} to {clock(run.last)}" for run in runs)
        print(f"{name:8} {'shut ' + times if times else 'open all day'}")


if __name__ == "__main__":
    try:
        main(sys.argv[1:])
    except stephylax.Refused as refused:
        sys.exit(str(refused))
