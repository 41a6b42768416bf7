#!/usr/bin/env python3
"""Checks that crates.txt is lowest first, and that README.md, docs/ARCHITECTURE.md and the heads of the crates agree with it.

A layer of crates.txt is a comment, its name before the colon, with the crates below it. README.md names the crates of
each layer in a row of its table, docs/ARCHITECTURE.md in its first picture. A head says behind "Stands on" some of the
crates that its own stands on, and behind a semicolon some that stand on it. Each difference is printed; the status is 0
only where there is none.
"""

import pathlib
import re
import sys

TOP = pathlib.Path(__file__).resolve().parent.parent


def layers_of(text):
    """The layers of crates.txt: of each its name, and its crates with what each stands on."""
    layers = {}
    for line in text.splitlines():
        if line.startswith("#"):
            crates = layers.setdefault(line[1:].partition(":")[0].strip(), {})
        elif line.strip():
            crate, _, below = line.partition(":")
            crates[crate.split()[0]] = below.split()
    return layers


def layers_in_readme(text):
    """The crates that a row of the table of layers names, by layer."""
    table = text.partition("| Layer |")[2].partition("\n\n")[0]
    rows = [row.split("|") for row in table.splitlines()[2:]]
    return {row[1].strip(): re.findall(r"`(\w+)`", row[2]) for row in rows}


def layers_in_picture(text, names):
    """The crates that the first picture names, by layer. A line that begins with no layer goes on with the last one."""
    picture = text.partition("```text\n")[2].partition("```")[0]
    found, layer = {}, None
    for line in picture.splitlines():
        begun = next((name for name in names if line.startswith(name + "  ")), None)
        layer = begun or layer
        if layer:
            found.setdefault(layer, []).extend(name.strip() for name in re.findall(r"\b(?:mz_\w+\b|coordinate\b|statements  )", line))
    return found


def faults_of_order(below):
    """Each crate that stands on a later one."""
    order = {crate: place for place, crate in enumerate(below)}
    for crate, named in below.items():
        for other in named:
            if order.get(other, -1) >= order[crate]:
                yield f"crates.txt: {crate} stands on {other}, which doesn't come before it"


def faults_of_folders(below):
    """Each folder that no line names."""
    for folder in sorted((TOP / "crates").iterdir()):
        if folder.name not in below:
            yield f"crates.txt: no line names crates/{folder.name}"


def faults_of_layers(file, layers, found):
    """Each layer of which the file names other crates, or in another order."""
    for name, crates in layers.items():
        if found.get(name) != list(crates):
            yield f"{file}: {name} has {' '.join(crates)}, and not {' '.join(found.get(name, ['nothing']))}"
    for name in found:
        if name not in layers:
            yield f"{file}: crates.txt has no layer {name}"


def head_of(crate):
    """The text of the crate's head."""
    files = [TOP / "crates" / crate / "src" / name for name in ("lib.rt", "main.rt")]
    lines = next(file for file in files if file.exists()).read_text().splitlines()
    return " ".join(line[3:].strip() for line in lines if line.startswith("//!"))


def faults_of_head(crate, below):
    """Each crate that the head names and that isn't where it says."""
    _, said, rest = head_of(crate).partition("Stands on ")
    if not said:
        yield f"{crate}: its head doesn't say what it stands on"
    own, _, others = rest.partition(";")
    named = re.findall(r"`(\w+)`", own)
    for other in named:
        if other not in below[crate]:
            yield f"{crate}: its head says that it stands on {other}"
    if not named and any(other in below for other in below[crate]):
        yield f"{crate}: its head names no crate that it stands on"
    for other in re.findall(r"`(\w+)`", others):
        if crate not in below.get(other, []):
            yield f"{crate}: its head says that {other} stands on it"


def faults():
    """All differences."""
    layers = layers_of((TOP / "crates.txt").read_text())
    below = {crate: named for crates in layers.values() for crate, named in crates.items()}
    yield from faults_of_order(below)
    yield from faults_of_folders(below)
    yield from faults_of_layers("README.md", layers, layers_in_readme((TOP / "README.md").read_text()))
    picture = layers_in_picture((TOP / "docs" / "ARCHITECTURE.md").read_text(), layers)
    yield from faults_of_layers("docs/ARCHITECTURE.md", layers, picture)
    for crate in below:
        yield from faults_of_head(crate, below)


def main():
    found = list(faults())
    for fault in found:
        print(fault)
    if not found:
        print("crates.txt, README.md, docs/ARCHITECTURE.md and the heads of the crates agree")
    sys.exit(1 if found else 0)


if __name__ == "__main__":
    main()
