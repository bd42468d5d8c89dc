#!/usr/bin/env python3
"""Spells the definitions and lemmas of this repository in snake case.

Run once at the top of the repository, after the toolchain's own port script. A name is taken where it is declared: in
specs/, in a lemma file of proofs/, or in a proof file where it is not a goal's. Names of src/, of types and of modules,
strings and comments keep their spelling. Names that fall together are listed, and then nothing is written.
"""
import re
import sys
from pathlib import Path

# names that would fall together with another of ours or of the library: in the files below a folder, or in one file
GIVEN = {
    "crates/opset": {"bit-and": "bit_of_and", "bit-or": "bit_of_or", "bit-xor": "bit_of_xor", "bit-and-not": "bit_of_and_not"},
    "crates/trace": {"lane-at": "lane_at_place", "lane-fits": "lane_fits_all", "lanes-fit": "lanes_fit_all", "lanes_fit": "lanes_fit_all"},
    "crates/trace_file/proofs/Back.antt": {"lane-fits": "lane_fits_all", "lanes-fit": "lanes_fit_all", "lanes_fit": "lanes_fit_all"},
    "crates/trace_file/proofs/Steps.antt": {"left-over": "left_over_faulty", "left_over": "left_over_faulty"},
    "crates/search": {"view-at": "view_at_place"},
    "crates/judge_text/proofs/Answered.antt": {"legal-text": "legal_text_told"},
}

# names that two crates may each have, since no file names both
APART = {"left_over"}

PART = r"[A-Za-z0-9_'\u2080-\u2089\u2115-]+"
DECLARES = re.compile(rf"^\s*(?:(?:abbrev|unfoldable|pub|data|record)\s+)*({PART})(?:\s+[({{][^:]*:.*)?\s+:\s(.*)")
TOKEN = re.compile(rf"(?<![A-Za-z0-9_'\u2080-\u2089\u2115◌-]){PART}(?![◌-])")


def snake(name):
    name = re.sub(r"(?<=[a-z0-9])([A-Z])", lambda m: "_" + m.group(1).lower(), name)
    return name.replace("-", "_")


def is_turned(name):
    plain = re.fullmatch(r"[a-z][A-Za-z0-9_']*(?:-[A-Za-z0-9_']+)*", name)
    return bool(plain) and snake(name) != name


def declared(files):
    """Each name of ours that is turned, with the files that declare it, and all other names that are declared."""
    turned, others = {}, {}
    for file in files:
        for line in file.read_text(encoding="utf-8").split("\n"):
            if line.lstrip().startswith(("--", "use ")):
                continue
            m = DECLARES.match(line)
            if not m or re.match(r"goal\.", m.group(2).strip()):
                continue
            (turned if is_turned(m.group(1)) else others).setdefault(m.group(1), set()).add(file)
    return turned, others


def imported(files):
    """The names that come from the library."""
    names = set()
    for file in files:
        text = file.read_text(encoding="utf-8")
        for m in re.finditer(r"use (?:Rattle\.std|Rattle\.core|native|mathlib|logic|lib)[^{;\n]*\.\{([^}]*)\}", text):
            for part in m.group(1).split(","):
                names.add(part.split(" as ")[-1].strip())
    return names


def generated(files):
    """The names of goals, which the toolchain makes."""
    names = set()
    for file in files:
        for m in re.finditer(r"goal\.([^\s,)]+)", file.read_text(encoding="utf-8")):
            names.add(m.group(1))
    return names


def given(file):
    """The names that are given in this file."""
    return {old: new for place, names in GIVEN.items() if file.is_relative_to(place) for old, new in names.items()}


def respelled(line, table, clause):
    if line.lstrip().startswith("--") or line.lstrip().startswith("//") or not clause:
        return line
    return TOKEN.sub(lambda m: table.get(m.group(0), m.group(0)), line)


def clause_lines(text):
    """Of a source file the lines that hold clauses, ghost fields and ghost imports."""
    out, depth = [], 0
    for line in text.split("\n"):
        starts = re.match(r"\s*(pub )?(ghost|ensures|requires|invariant)\b|\s*#\[tactic", line)
        out.append(bool(starts) or depth > 0)
        if starts or depth > 0:
            depth += line.count("{") - line.count("}") + line.count("(") - line.count(")")
            depth = max(depth, 0)
    return out


def main():
    antt = sorted(p for p in Path("crates").glob("*/*/**/*.antt") if p.parts[2] in ("specs", "proofs"))
    sources = sorted(Path("crates").glob("*/src/**/*.rt"))
    turned, others = declared(antt)
    foreign = imported(antt + sources) | generated(antt)
    for name in sorted(set(turned) & foreign):
        print(f"left: {name}, which is also a name of the library or of a goal")
        del turned[name]
    table = {name: snake(name) for name in turned if not all(name in given(file) for file in turned[name])}
    for name in [name for name in others if all(name in given(file) for file in others[name])]:
        del others[name]
    clash = 0
    by_new = {}
    for old, new in table.items():
        by_new.setdefault(new, set()).add(old)
    for new, olds in sorted(by_new.items()):
        if new not in APART and (len(olds) > 1 or new in others or new in foreign):
            where = sorted({str(f) for o in olds for f in turned[o]} | {str(f) for f in others.get(new, ())})
            print(f"falls together: {sorted(olds)} -> {new}{' of the library' if new in foreign else ''}: {where}")
            clash += 1
    if "--table" in sys.argv:
        for old, new in sorted(table.items()):
            print(old, new)
    if clash and "--anyway" not in sys.argv:
        sys.exit(1)
    for file in antt:
        text = file.read_text(encoding="utf-8")
        here = table | given(file)
        new = "\n".join(respelled(line, here, True) for line in text.split("\n"))
        if new != text:
            file.write_text(new, encoding="utf-8")
    for file in sources:
        text = file.read_text(encoding="utf-8")
        flags, here = clause_lines(text), table | given(file)
        new = "\n".join(respelled(line, here, flag) for line, flag in zip(text.split("\n"), flags))
        if new != text:
            file.write_text(new, encoding="utf-8")


if __name__ == "__main__":
    main()
