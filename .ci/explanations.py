#!/usr/bin/env python3
"""Compares what `statements explain` says of random statements with the model beside this repository:
explanations.py PROGRAM [--seed N] [--count N] [--keep FOLDER]

`PROGRAM explain` reads one statement a line, over a catalog that the statements change, and says what each asks for: the
plan of a query, or what a command does; or its refusal. Some lines name the cluster whose indexes are used from then on.
Each difference is printed; the status is 0 only where there is none. With --keep the statements of the first run and what
is to be said of them go into files of FOLDER, for a comparison without the model.
"""

import argparse
import pathlib
import random
import subprocess
import sys

sys.path.insert(0, str(pathlib.Path(__file__).resolve().parents[2] / "shared" / "reference"))

import generate
from model import plan, sql, state
from model.refusals import Refused
from model.stages import Stage

STAGE = Stage.TRANSACTIONS
LINES_OF_A_RUN = 400
CLUSTERS = 3


# Plans as they are printed

def value_text(value):
    if isinstance(value, bool):
        return "true" if value else "false"
    return f"'{value}'" if isinstance(value, str) else str(value)


def condition_text(test):
    match test:
        case sql.All(tests):
            return joined_text("and", tests)
        case sql.Any(tests):
            return joined_text("or", tests)
        case sql.Not(below):
            return f"not {condition_text(below)}"
        case plan.Comparison(place, op, side):
            other = value_text(side.value) if isinstance(side, sql.Literal) else f"#{side.place}"
            return f"#{place} {op} {other}"


def joined_text(word, tests):
    text = condition_text(tests[0])
    for test in tests[1:]:
        text = f"({text} {word} {condition_text(test)})"
    return text


def places_text(places):
    return "".join(f" #{place}" for place in places)


def aggregate_text(name, place):
    return f" {name}" if place is None else f" {name}#{place}"


def plan_text(asked):
    match asked:
        case plan.Table(number):
            return f"table {number}"
        case plan.Index(number):
            return f"index {number}"
        case plan.Filter(below, test):
            return f"filter({plan_text(below)}, {condition_text(test)})"
        case plan.Project(below, places):
            return f"project({plan_text(below)},{places_text(places)})"
        case plan.Join(left, right, pairs):
            shown = "".join(f" #{one}=#{other}" for one, other in pairs)
            return f"join({plan_text(left)}, {plan_text(right)},{shown})"
        case plan.Union(left, right):
            return f"union({plan_text(left)}, {plan_text(right)})"
        case plan.Group(below, keys, aggregates):
            shown = "".join(aggregate_text(*aggregate) for aggregate in aggregates)
            return f"group({plan_text(below)},{places_text(keys)},{shown})"
        case plan.Distinct(below):
            return f"distinct({plan_text(below)})"


# The program's lines

class Model:
    """What the program should say, line by line."""

    def __init__(self):
        self.state, self.cluster = state.OPENING, 0

    def answer(self, line):
        if line.startswith("cluster "):
            self.cluster = int(line.removeprefix("cluster "))
            return line
        try:
            return self.explained(sql.parse(line.encode(), STAGE))
        except Refused as refused:
            return str(refused.refusal)

    def explained(self, statement):
        match statement:
            case sql.Query():
                return plan_text(plan.resolve_query(statement, self.state.catalog, self.cluster).plan)
            case sql.Insert(name, rows):
                state.insert(self.state, statement, self.cluster)
                return f"insert {len(rows)} into {state.find_table(self.state, name).number}"
            case sql.Delete():
                return self.deleted(statement)
            case sql.Drop(_, name):
                return self.dropped(statement, self.state.catalog.find(name))
            case sql.CreateTable() | sql.CreateView() | sql.CreateIndex():
                return self.created(statement)
        return "refused 1: at 0"

    def deleted(self, statement):
        table = state.find_table(self.state, statement.name)
        if statement.test is None:
            return f"delete from {table.number}"
        test = plan.resolve_test(statement.test, plan.Columns([(table.name, table.columns)]))
        return f"delete from {table.number} where {condition_text(test)}"

    def dropped(self, statement, item):
        self.state, _ = state.drop(self.state, statement, self.cluster)
        return f"dropped {item.number}"

    def created(self, statement):
        self.state, done = state.APPLY[type(statement)](self.state, statement, self.cluster)
        item = self.state.catalog.items[done.created]
        if item.kind == "view":
            columns = ", ".join(f"{name} {kind}" for name, kind in item.columns)
            return f"created {item.number} ({columns})"
        if item.kind == "index":
            return f"created {item.number} on {item.relation}: {plan_text(item.plan)}"
        return f"created {item.number}"


def lines_of(source):
    """The lines of one run, with what the program should say of each."""
    model = Model()
    for _ in range(LINES_OF_A_RUN):
        line = f"cluster {source.randrange(CLUSTERS)}" if source.random() < 0.02 else \
            generate.Statements(source, STAGE, model.state.catalog).text(0)
        yield line, model.answer(line)


def differences(program, lines):
    """Prints each line of which the program says something else, and counts them."""
    text = "".join(line + "\n" for line, _ in lines)
    done = subprocess.run([program, "explain"], input=text.encode(), capture_output=True)
    said = done.stdout.decode().split("\n")[:-1]
    failed = abs(len(lines) - len(said)) + (done.returncode != 0)
    for (line, wanted), one in zip(lines, said):
        if one != wanted:
            failed += 1
            print(f"{line!r}\n  gives {one!r}\n  not   {wanted!r}")
    return failed


def main():
    words = argparse.ArgumentParser(description=__doc__.splitlines()[0])
    words.add_argument("program")
    words.add_argument("--seed", type=int, default=1)
    words.add_argument("--count", type=int, default=4000)
    words.add_argument("--keep", type=pathlib.Path)
    asked = words.parse_args()
    source = random.Random(asked.seed)
    failed = refused = 0
    for run in range(asked.count // LINES_OF_A_RUN):
        lines = list(lines_of(source))
        if asked.keep and run == 0:
            (asked.keep / "explain.in").write_text("".join(line + "\n" for line, _ in lines))
            (asked.keep / "explain.out").write_text("".join(wanted + "\n" for _, wanted in lines))
        failed += differences(asked.program, lines)
        refused += sum(wanted.startswith("refused") for _, wanted in lines)
    print(f"{asked.count} statements ({refused} of them refused), {failed} differ")
    sys.exit(failed != 0)


if __name__ == "__main__":
    main()
