#!/usr/bin/env python3
"""Compares docs/layout.schema.json with what `station check` says of the stored layouts: the schema has to accept every layout
of the repository, and every stored case that is a layout, and to refuse those that have fault 2 or 3. The faults are read
off the stored answers (crates/stored_runs/stdout). Needs Python's jsonschema.

    python3 bench/schema.py
"""
import json
import pathlib
import re
import sys
import tomllib

import jsonschema

TOP = pathlib.Path(__file__).resolve().parent.parent
STORED = TOP / "crates/stored_runs"
# What only a text of TOML 1.1 has, and Python's reader of TOML 1.0 refuses.
LATER = "TOML 1.1"


def text_of(case):
    """The text of the layout that a case names, with its changes."""
    title = case.split("\n", 1)[0]
    text = (STORED / "data/layouts" / title.split(": ")[0]).read_text()
    for change in case.split("\n-")[1:]:
        old, new = change.split("\n+", 1)
        text = text.replace(old, new, 1)
    return title, text


def cases():
    """Each stored case: its title, its text, and the number of the layout fault that is stored for it, 0 for none."""
    answers = (STORED / "stdout").read_text()
    for line in (STORED / "data/runs").read_text().splitlines():
        kind, _, file = line.partition(" ")
        if kind not in ("report", "contents"):
            continue
        told = answers.split(f"{line}\n", 1)[1]
        for case in (STORED / "data" / file).read_text().rstrip().split("\n\n"):
            title, text = text_of(case)
            _, _, told = told.partition(f"{title}\n")
            fault = re.match(r"layout fault (\d+) ", told)
            yield title, text, int(fault[1]) if fault else 0


def layouts():
    """Every layout that stands in the repository by itself. Those of the folder `layouts` are there for the cases."""
    for file in sorted({*TOP.glob("examples/**/*.toml"), *TOP.glob("crates/*/data/*.toml")}):
        yield str(file.relative_to(TOP)), file.read_text(), 0


def main():
    validator = jsonschema.Draft202012Validator(json.loads((TOP / "docs/layout.schema.json").read_text()))
    counts, wrong = {"accepted": 0, "refused": 0, "left to the other tests": 0, "not read by Python": 0}, []
    for title, text, fault in [*layouts(), *cases()]:
        try:
            layout = tomllib.loads(text)
        except tomllib.TOMLDecodeError as error:
            counts["not read by Python"] += 1
            if fault != 1 and LATER not in title:
                wrong.append(f"{title}: {error}")
            continue
        is_accepted = validator.is_valid(layout)
        if fault in (0, 2, 3):
            counts["accepted" if is_accepted else "refused"] += 1
            if is_accepted != (fault == 0):
                wrong.append(f"{title}: fault {fault}, and the schema {'accepts' if is_accepted else 'refuses'} it")
        else:
            counts["left to the other tests"] += 1
    print(", ".join(f"{count} {what}" for what, count in counts.items()))
    for line in wrong:
        print("WRONG", line)
    return 1 if wrong else 0


if __name__ == "__main__":
    sys.exit(main())
