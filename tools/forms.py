#!/usr/bin/env python3
"""Lists the places in crates/*/src where older forms of the language are likely: a count for each point of docs/DESIGN-PASS.md.

    python3 tools/forms.py [FOLDER]         the counts
    python3 tools/forms.py [FOLDER] -v      each place too

It reads texts and judges nothing: a place is one to look at. FOLDER is a checkout, this one if left out.
"""
import collections
import glob
import os
import re
import sys

here = os.path.dirname(os.path.dirname(os.path.abspath(__file__)))
args = [a for a in sys.argv[1:] if a != "-v"]
root = args[0] if args else here
verbose = "-v" in sys.argv
files = {os.path.relpath(p, root): open(p).read() for p in sorted(glob.glob(root + "/crates/*/src/**/*.rt", recursive=True))}


def functions(text):
    """Each function: its name, its parameters (name, type), its clauses, its body."""
    for m in re.finditer(r"(?m)^ *(?:pub )?(?:extern \"C\" )?fn (\w+)(?:<[^>]*>)?\(((?:[^()]|\([^()]*\))*)\)([^{]*?(?:\{[^{}]*(?:\{[^{}]*\}[^{}]*)*\}\s*(?:requires|ensures)?[^{]*?)*?)^ *\{$", text):
        body = text[m.end():]
        depth, i = 1, 0
        while depth and i < len(body):
            depth += {"{": 1, "}": -1}.get(body[i], 0)
            i += 1
        params = [tuple(x.strip() for x in p.split(":", 1)) for p in re.split(r",(?![^<(\[]*[>)\]])", m[2]) if ":" in p]
        yield m[1], params, m[3], body[:i]


found = collections.OrderedDict()


def add(point, what, place):
    found.setdefault(point, collections.OrderedDict()).setdefault(what, []).append(place)


for path, text in files.items():
    crate = path.split("/")[1]
    # 1
    for m in re.finditer(r"(?m)^(?:pub )?enum (\w+)[^{]*\{\n((?:[^}]|\}(?!\n))*)\n\}", text):
        variants = re.findall(r"(?m)^    (\w+)(\([^)]*\)|,)", re.sub(r"//.*", "", m[2]))
        if len(variants) == 2 and any(v[1].startswith("(") for v in variants):
            add("1", "enums of two cases with a value", f"{path} {m[1]}")
    for m in re.finditer(r"(?m)^(?:pub )?struct (\w+)[^{;(]*\{\n((?:[^}]|\}(?!\n))*)\n\}", text):
        if re.search(r"\b(usual|good|more|wide|begun|minus|digits): bool", m[2]):
            add("1", "structs with a flag beside values", f"{path} {m[1]}")
    for m in re.finditer(r"(?m)((?:^ *//[^\n]*\n)+)^ *(?:pub )?fn (\w+)", text):
        if re.search(r"number of the refusal|refusal's number|, or 0\b|that does not exist, or 0|or -1\b", m[1], re.I):
            add("1", "functions that answer a number of a kind, or 0", f"{path} {m[2]}")
    for m in re.finditer(r"(?m)^(?:pub )?const ((?:FAULT|\w*FLAG|DROPPED|SPACED|\w+_FIELD)\w*): u\w+", text):
        add("1", "constants that number kinds", f"{path} {m[1]}")
    # 3
    for m in re.finditer(r"(?m)^ *while ([^{]*)\{", text):
        kind = "loops by `while` over an index or a count" if re.search(r"^\w+ (<|>) |^0 < |\.len\(\)", m[1]) else "other loops by `while`"
        add("3", kind, f"{path}: while {m[1].strip()}")
    # 4
    for name, params, clauses, body in functions(text):
        copied = re.findall(r"(?m)^ +(\w+): (\w+)\.\1,$", body)
        if len(copied) >= 2 and len({c[1] for c in copied}) < len(copied):
            add("4", "functions that copy a struct field by field", f"{path} {name}")
        if re.match(r"\s*-> (u64|i64|usize|u8)", clauses) and re.fullmatch(r"\s*(\w+(\[\w+\])?) as \w+\s*\}?", body):
            add("4", "conversions by hand", f"{path} {name}")
        if re.match(r"put_", name) and any(p[0] == "out" for p in params):
            add("4", "functions that print by hand", f"{path} {name}")
        if len(re.findall(r"(?m)^ +if [^{]*\{\n +return (true|false);\n +\}", body)) >= 1 and "-> bool" in clauses:
            add("4", "chains of tests that answer true or false", f"{path} {name}")
        # 7
        for p in params:
            if p[1] == "bool" and p[0] in ("heading", "writes", "wide", "minus", "neg", "below", "first"):
                add("7", "functions that a bool tells what to do", f"{path} {name}({p[0]})")
        # 6
        if re.search(r"\[\[u64; 3\]|\[\[i64; 3\]", body + clauses) or any("[[" in p[1] for p in params):
            add("6", "functions over rows of bare numbers", f"{path} {name}")
        slices = [p for p in params if re.search(r"&(mut )?\[", p[1])]
        if slices and any(p[0] == "at" and p[1] == "usize" for p in params) and any(p[0] == "out" for p in params):
            add("6", "functions with a buffer and the place in it beside", f"{path} {name}")
        arrays = [p for p in params if re.search(r"\[[iu]64; ROOM\]", p[1])]
        if len(arrays) >= 2:
            add("6", "functions with parallel arrays", f"{path} {name}")

# 5: a fact that stands in the requires of three functions or more of a crate; three parameters or more that go together in three functions or more
facts = collections.defaultdict(lambda: collections.defaultdict(set))
groups = collections.defaultdict(lambda: collections.defaultdict(set))
for path, text in files.items():
    crate = path.split("/")[1]
    for name, params, clauses, body in functions(text):
        for req in re.findall(r"requires(?: \w+)? \{((?:[^{}]|\{[^{}]*\})*)\}", clauses):
            for fact in re.split(r" × |\n", req):
                fact = fact.strip(" ()\n×")
                m = re.match(r"([A-Z]\w+) ", fact)
                if m:
                    facts[crate][m[1]].add(f"{path} {name}")
        names = [p[0] for p in params]
        for i in range(len(names)):
            for j in range(i + 1, len(names)):
                for k in range(j + 1, len(names)):
                    groups[crate][(names[i], names[j], names[k])].add(f"{path} {name}")
for crate, by in facts.items():
    for fact, where in by.items():
        if len(where) >= 3:
            add("5", "facts that three functions of a crate or more ask for", f"{crate} {fact}: {len(where)} functions")
for crate, by in groups.items():
    best = [(len(w), g) for g, w in by.items() if len(w) >= 3]
    if best:
        n, g = max(best)
        add("5", "crates where three parameters go together in three functions or more", f"{crate} {', '.join(g)}: {n} functions")

# 2: functions of one crate whose bodies have the same shape
shapes = collections.defaultdict(list)
for path, text in files.items():
    for name, params, clauses, body in functions(text):
        shape = re.sub(r"\b[a-zA-Z_]\w*(::\w+)*\b|\d+", lambda m: m[0] if m[0] in ("if", "else", "while", "for", "in", "return", "let", "mut", "match", "as") else "x", body)
        shape = re.sub(r"\s+", " ", shape)
        if len(shape) > 60 and "extern" not in text[max(0, text.find("fn " + name + "(") - 14):text.find("fn " + name + "(")]:
            shapes[shape].append(f"{path} {name}")
for shape, where in shapes.items():
    if len(where) > 1:
        add("2", "groups of functions of one shape", "; ".join(where))

# 8
answers = glob.glob(root + "/crates/*/proofs/**/Answers.antt", recursive=True)
answers = [a for a in answers if "/out/" not in a]
for a in answers:
    add("8", "files of answers", os.path.relpath(a, root))
    for g in re.findall(r"(?m)^pub (\S+) : goal", open(a).read()):
        add("8", "answers", f"{os.path.relpath(a, root)} {g}")

for point in sorted(found):
    for what, places in found[point].items():
        print(f"{point}  {len(places):5}  {what}")
        if verbose and point != "8":
            for p in places:
                print("            " + p)
