#!/usr/bin/env python3
"""Brings the names of this repository's definitions and lemmas to the library's spelling, once, after the kit's port.py.

usage: python3 tools/port_names.py [--list]      at the top of the repository; --list prints the table and changes nothing

Types are in upper camel case, all other names in snake case, and the module `machine` of specs/ is `Machine`. What turns are whole words in .antt
files, in the ghost parts of .rt files, in the lines `old:` and `new:` of must-fail edits, and in code spans of comments and pages. Names of Rust
functions, C names, texts, inputs and outputs stay. A second run changes nothing.
"""

import glob
import os
import re
import subprocess
import sys

SIGNATURE = re.compile(r"^\s*(?:(?:abbrev|unfoldable|pub|opaque|private)\s+)*((?:[^\s(){}.;,@\"λ|=]+\s+)+):\s(.*)")
ALIAS = re.compile(r"(?<![^\s{,])[^\s{,]+ as ([^\s},]+)")
DECLARED = re.compile(r"^\s*(?:(?:abbrev|unfoldable|pub|opaque|private)\s+)*(?:record|data)\s+([^\s(){}.;,@\"]+)")
WORD = re.compile(r"[^\s(){}\[\].;,@\"«»⌜⌝|`]+")
SPAN = re.compile(r"`[^`\n]+`")


def files(*patterns):
    for p in patterns:
        yield from sorted(f for f in glob.glob(p, recursive=True) if "/out/" not in f)


def read(path):
    with open(path, encoding="utf-8") as f:
        return f.read()


def definitions():
    """Each name that is defined, and whether one of its definitions is a type. The goals that a walk proves are not names of ours."""
    found = {}
    for path in files("crates/*/specs/**/*.antt", "crates/*/proofs/**/*.antt"):
        lines = read(path).split("\n")
        for i, line in enumerate(lines):
            m = DECLARED.match(line)
            if m:
                found[m[1]] = True
                continue
            m = SIGNATURE.match(line)
            if not m:
                continue
            stated = m[2]
            j = i + 1
            while j < len(lines) and re.match(r"\s+(→|×|≡|\()", lines[j]):
                stated += " " + lines[j].strip()
                j += 1
            if path.endswith("Proof.antt") and ("tie." in stated or "statement" in stated):
                continue
            is_type = bool(re.search(r"(^|→ |\) )Type [01]$", stated.strip()))
            for name in m[1].split():
                found[name] = found.get(name, False) or is_type
    for path in files("crates/*/src/**/*.rt", "crates/*/specs/**/*.antt", "crates/*/proofs/**/*.antt"):
        for line in read(path).split("\n"):
            if line.lstrip().startswith(("ghost use ", "use ", "pub use ")):
                for name in ALIAS.findall(line):
                    found.setdefault(name, False)
    return found


def turned(name, is_type):
    if is_type and name[0].isupper():
        head, *rest = name.split("-")
        return head + "".join(r[:1].upper() + r[1:] for r in rest)
    return name.replace("-", "_")


def table():
    found = definitions()
    rows = {n: turned(n, t) for n, t in found.items() if "-" in n and n[0].isalpha() and re.fullmatch(r"[\w'₀₁₂₃₄-]+", n)}
    taken = {}
    for path in files("crates/*/specs/**/*.antt", "crates/*/proofs/**/*.antt"):
        for w in WORD.findall(read(path)):
            taken.setdefault(w, path)
    clashes = []
    for n in sorted(rows):
        if rows[n] in taken or list(rows.values()).count(rows[n]) > 1:
            clashes.append((n, rows[n], taken.get(rows[n])))
    return rows, clashes


def words(text, rows):
    return WORD.sub(lambda m: rows.get(m[0], m[0]), text)


def in_antt(text, rows, bare):
    out = []
    for line in text.split("\n"):
        m = re.search(r"(?<!\S)--(?=\s|$)", line)
        code, comment = (line[: m.start()], line[m.start() :]) if m else (line, "")
        out.append(words(code, rows) + in_comment(comment, rows, bare))
    return "\n".join(out)


def in_comment(text, rows, bare):
    """A code span turns whole; elsewhere only the names that no English sentence has: those of types and of the rules' constants."""
    return re.sub(r"[^\s(){}\[\].;,@\"«»⌜⌝|`/·]+", lambda m: bare.get(m[0], m[0]), SPAN.sub(lambda m: words(m[0], rows), text))


def in_rt(text, rows, bare):
    out = []
    for line in text.split("\n"):
        at = line.find("//")
        code, comment = (line, "") if at < 0 else (line[:at], line[at:])
        if '"' not in code:
            code = words(code, rows)
        out.append(code + in_comment(comment, rows, bare))
    return "\n".join(out)


def in_page(text, rows, known):
    def span(m):
        return WORD.sub(lambda w: rows.get(w[0]) or (w[0].replace("-", "_") if w[0].replace("-", "_") in known and "-" in w[0] else w[0]), m[0])

    return SPAN.sub(span, text)


def main(argv):
    rows, clashes = table()
    if "--list" in argv:
        for n in sorted(rows):
            print(n, rows[n])
        for c in clashes:
            print("clash:", *c)
        return 0
    for n, new, _ in clashes:
        rows[n] = OTHER.get(n, new)
    constants = {w for path in files("crates/units/specs/*.antt") for w in WORD.findall(read(path))}
    bare = {n: new for n, new in rows.items() if (n[0].isupper() and len(n) > 4) or n in constants}
    for path in files("crates/*/specs/**/*.antt", "crates/*/proofs/**/*.antt"):
        put(path, left_over(in_antt(read(path), rows, bare).replace(".specs.machine.", ".specs.Machine.").replace("pub mod machine", "pub mod Machine")))
    for path in files("crates/*/src/**/*.rt"):
        put(path, left_over(in_rt(read(path), rows, bare).replace(".specs.machine.", ".specs.Machine.")))
    for path in files("crates/*/must-fail/*.edit"):
        put(path, "\n".join(left_over(words(l, rows)) if l.startswith(("old:", "new:")) else l.replace("specs/machine", "specs/Machine") for l in read(path).split("\n")))
    known = set(definitions())
    for path in files("README.md", "CONTRIBUTING.md", "docs/*.md", "docs/changes/*.md"):
        if path != "docs/PORT.md":
            put(path, in_page(read(path), rows, known).replace("specs/machine", "specs/Machine"))
    for path in files("crates/*/specs/machine.antt", "crates/*/specs/machine"):
        subprocess.run(["git", "mv", path, path.replace("specs/machine", "specs/Machine")], check=True)
    return 0


def put(path, text):
    if text != read(path):
        with open(path, "w", encoding="utf-8") as f:
            f.write(text)


# Where the plain turn of a name meets another name.
OTHER = {}

# What the rows above leave: names that port.py turned in part, one alias of a type, names that end in a sign, and parameters.
PARAMETERS = (
    "planet-bytes earth-bytes list-after list-run list-then out-after out-then slot-after text-left line-b past-a past-b past-c is-missing dropped-run "
    "near-stay⁻ near-up⁻ not-far⁻ odd-rises⁻ within-law⁻ boundary-angle⁻"
).split()
LEFT = {"Goes_on": "GoesOn", "Right_date": "RightDate", "is_Block": "is_block"} | {n: n.replace("-", "_") for n in PARAMETERS}


def left_over(text):
    """Whole words, also in comments; and the library's older names of |z| and -z inside names of ours."""
    text = re.sub(r"[^\s(){}\[\].;,@\"«»`]+", lambda m: LEFT.get(m[0], m[0]), text)
    text = re.sub(r"(?<![A-Za-z])(\w*)natAbs", r"\1nat_abs", text)
    return text.replace("negℤ-*ℤ", "neg_ℤ-*ℤ")


if __name__ == "__main__":
    raise SystemExit(main(sys.argv[1:]))
