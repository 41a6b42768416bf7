#!/usr/bin/env python3
"""Compares what `statements print` makes of random statements with the model beside this repository:
statements.py PROGRAM [--seed N] [--count N] [--keep FOLDER]

`PROGRAM print` reads one statement a line, and prints each in its one form, or its refusal. Some of the statements
are spelled oddly, and some have one place changed so that they mostly are no statements. Each difference is
printed; the status is 0 only where there is none. With --keep the statements and what is to be printed of them go
into files of FOLDER, for a comparison without the model.
"""

import argparse
import pathlib
import random
import subprocess
import sys

sys.path.insert(0, str(pathlib.Path(__file__).resolve().parents[2] / "shared" / "reference"))

import generate
from model import sql
from model.refusals import Refused
from model.stages import Stage

STAGE = Stage.TRANSACTIONS
SCRIPT_LINES = 80
TEXTS_OF_A_SCRIPT = 200


def texts(source, count):
    """So many texts, over the catalogs of random scripts."""
    while count > 0:
        scripts = generate.Scripts(source, STAGE)
        scripts.script(SCRIPT_LINES)
        log = scripts.world.log
        statements = generate.Statements(source, STAGE, log.state.catalog)
        for _ in range(min(count, TEXTS_OF_A_SCRIPT)):
            text = statements.text(log.read)
            draw = source.random()
            if draw < 0.25:
                text = statements.respelled(text)
            elif draw < 0.65:
                text = statements.spoiled(text)
            yield text
        count -= TEXTS_OF_A_SCRIPT


def expected(text):
    """What is to be printed of the text."""
    try:
        return sql.print_statement(sql.parse(text.encode(), STAGE))
    except Refused as refused:
        return str(refused.refusal)


def main():
    words = argparse.ArgumentParser(description=__doc__.splitlines()[0])
    words.add_argument("program")
    words.add_argument("--seed", type=int, default=1)
    words.add_argument("--count", type=int, default=2000)
    words.add_argument("--keep", type=pathlib.Path)
    asked = words.parse_args()
    lines = list(texts(random.Random(asked.seed), asked.count))
    if asked.keep:
        (asked.keep / "print.in").write_text("".join(line + "\n" for line in lines))
        (asked.keep / "print.out").write_text("".join(expected(line) + "\n" for line in lines))
    done = subprocess.run([asked.program, "print"], input="".join(line + "\n" for line in lines).encode(), capture_output=True)
    printed = done.stdout.decode().split("\n")[:-1]
    failed = abs(len(lines) - len(printed)) + (done.returncode != 0)
    for line, one in zip(lines, printed):
        wanted = expected(line)
        if one != wanted:
            failed += 1
            print(f"{line!r}\n  gives {one!r}\n  not   {wanted!r}")
    refused = sum(one.startswith("refused") for one in printed)
    print(f"{len(lines) - failed} statements agree ({refused} of them refused), {failed} differ")
    sys.exit(failed != 0)


if __name__ == "__main__":
    main()
