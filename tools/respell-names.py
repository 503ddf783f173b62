#!/usr/bin/env python3
"""Brings the names of definitions, lemmas and their variables to snake case: monthFigures becomes month_figures.

Run once at the top of the repository, after the toolchain's port.py. It changes whole words alone, in the files of
crates/ and in README.md and docs/, and leaves types, relations and modules (an upper first letter) and the units kW, kWh
and kVA as they are. Functions of src/ are in snake case already. It prints each file in which a new name falls
together with a word that stood there.
"""
import pathlib
import re
import sys

UNITS = {"kW", "kWh", "kVA"}
# A word whose plain respelling would be another's name, or a field's.
OTHERWISE = {
    "place_at": "get_or-places_of",
    "neSum": "sum_of_ne",
    "ncSum": "sum_of_nc",
}
WORD = re.compile(r"(?<![\w'-])[a-z][\w'-]*")


def respelled(word):
    if word in OTHERWISE:
        return OTHERWISE[word]
    parts = word.split("-")
    if any(part in UNITS for part in parts):
        return word
    return "-".join(re.sub(r"(?<=[a-z0-9])[A-Z]+", lambda m: "_" + m.group().lower(), part) for part in parts)


def main(top):
    files = [top / "README.md", *sorted(top.glob("docs/*.md"))]
    files += [f for f in sorted(top.glob("crates/**/*")) if f.suffix in (".antt", ".rt", ".edit") and "out" not in f.parts]
    for file in files:
        text = file.read_text()
        words = set(WORD.findall(text))
        new = WORD.sub(lambda m: respelled(m.group()), text)
        if new == text:
            continue
        made = {respelled(w) for w in words if respelled(w) != w}
        for name in sorted(made & words):
            print(f"{file}: {name} stood there")
        file.write_text(new)


main(pathlib.Path(sys.argv[1] if len(sys.argv) > 1 else "."))
