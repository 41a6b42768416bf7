#!/usr/bin/env python3
"""Compares what `statements maintain` says of random queries and writes with the model beside this repository:
maintained.py PROGRAM [--seed N] [--count N] [--keep FOLDER]

`PROGRAM maintain` reads tables, views, a query and writes; at each line `at TIME` it says how the rows of the query changed
by what was written since the line before. Each run that differs is printed; the status is 0 only where there is none.
With --keep a longer run and what is to be said of it go into files of FOLDER, for a comparison without the model.
"""

import argparse
import functools
import multiprocessing
import pathlib
import random
import subprocess
import sys

import explanations
import generate
from model import plan, sql, state
from model.refusals import Refused

LINES_OF_A_RUN = 40
LINES_THAT_ARE_KEPT = 400
LAST_TIME = 9223372036854775806
OPENING = [
    "CREATE TABLE t (k INT, text TEXT, b BOOL)",
    "CREATE TABLE u (a INT, k INT)",
    "INSERT INTO kv VALUES (1, 10), (1, 20), (2, 5)",
    "CREATE VIEW v1 AS SELECT k, COUNT(*) AS n, SUM(v) AS sum, MIN(v) AS a FROM kv GROUP BY k",
    "CREATE VIEW v2 AS SELECT k, v FROM kv UNION ALL SELECT k, a FROM u",
    "CREATE VIEW v3 AS SELECT kv.k, text, v FROM kv JOIN t ON t.k = kv.k",
]


def change_lines(before, after):
    """How a bag changed, a line for each row, in order of values."""
    changed = {row: after.get(row, 0) - before.get(row, 0) for row in {*before, *after}}
    return [f"  {count:+} {sql.print_row(row)}" for row, count in sorted(changed.items()) if count]


class Model(explanations.Model):
    """What the program should say, line by line."""

    def __init__(self):
        super().__init__()
        self.query, self.rows, self.last = None, {}, None

    def answer(self, line):
        word, _, number = line.partition(" ")
        if word == "at" and number.isdigit() and int(number) <= LAST_TIME:
            return self.changed(int(number))
        try:
            return self.explained(sql.parse(line.encode(), explanations.STAGE))
        except Refused as refused:
            return str(refused.refusal)

    def changed(self, time):
        if self.query is None:
            return "no query"
        if self.last is not None and time <= self.last:
            return f"asked {time}, last {self.last}"
        before, self.rows, self.last = self.rows, self.state.evaluate(self.query), time
        lines = change_lines(before, self.rows)
        return "\n".join([f"at {time}: {len(lines)} changes", *lines])

    def explained(self, statement):
        match statement:
            case sql.Query():
                relation = plan.resolve_query(statement, self.state.catalog, 0)
                self.query, self.rows = relation.plan, {}
                return explanations.plan_text(self.query)
            case sql.Insert():
                self.state, _ = state.insert(self.state, statement, 0)
                return f"insert {len(statement.rows)} into {state.find_table(self.state, statement.name).number}"
            case sql.Delete():
                said = self.deleted(statement)
                self.state, _ = state.delete(self.state, statement, 0)
                return said
            case sql.CreateIndex():
                return "no index is maintained"
            case sql.Drop(kind) if kind != "index" and self.query is not None:
                return "a query is maintained"
        return super().explained(statement)


class Lines:
    """The lines of a random run."""

    def __init__(self, source):
        self.source, self.model, self.time = source, Model(), source.choice([0, 0, 1, 7])
        self.opening = [line for line in OPENING if source.random() < 0.7]

    def makers(self):
        return generate.Statements(self.source, explanations.STAGE, self.model.state.catalog)

    def query(self):
        """A query that mostly resolves, and mostly to more than a table."""
        for _ in range(self.source.choice([1, 20, 20, 20])):
            query = self.makers().query()
            try:
                relation = plan.resolve_query(query, self.model.state.catalog, 0)
            except Refused:
                continue
            if not isinstance(relation.plan, plan.Table) or self.source.random() < 0.1:
                break
        return query

    def statement(self):
        makers = self.makers()
        if self.opening:
            return self.opening.pop(0)
        if self.model.query is None:
            makers_of = [self.query] * 3 + [makers.insert] * 3 + [makers.create_table, makers.create_view]
        elif self.source.random() < 0.08:
            makers_of = [makers.create_table, makers.create_view, makers.create_index, makers.drop] + [self.query] * 6
        else:
            makers_of = [makers.insert] * 5 + [makers.delete] * 2
        made = self.source.choice(makers_of)()
        if isinstance(made, sql.Delete) and made.test is None and self.source.random() < 0.7:
            made = makers.delete()
        return sql.print_statement(made)

    def at(self):
        """A line for a time, sometimes one that is no later, or that is none."""
        if self.source.random() < 0.03:
            return self.source.choice(["at -1", "at 9223372036854775807", "at", f"at {max(0, self.time - 1)}"])
        self.time += self.source.choice([1, 1, 1, 2, 1000])
        return f"at {self.time}"

    def run(self, count):
        """Lines, each with what the program should say of it."""
        for _ in range(count):
            line = self.at() if not self.opening and self.source.random() < 0.3 else self.statement()
            yield line, self.model.answer(line)


def said(program, lines):
    """What the program says of lines, and its status."""
    text = "".join(line + "\n" for line in lines)
    done = subprocess.run([program, "maintain"], input=text.encode(), capture_output=True)
    return done.stdout.decode(), done.returncode


def difference(program, run):
    """What is printed where the program says something else of a run."""
    wanted = "".join(answer + "\n" for _, answer in run)
    text, status = said(program, [line for line, _ in run])
    if (text, status) == (wanted, 0):
        return ""
    lines = "\n".join(line for line, _ in run)
    return f"{lines}\ngives status {status} and\n{text}not\n{wanted}"


def compared(program, number):
    """How many changes a run has, and what is printed where it differs."""
    run = list(Lines(random.Random(number)).run(LINES_OF_A_RUN))
    return sum(answer.count("\n") for _, answer in run), difference(program, run)


def keep(folder, source):
    """Writes a longer run, and what is to be said of it."""
    run = list(Lines(source).run(LINES_THAT_ARE_KEPT))
    (folder / "maintain.in").write_text("".join(line + "\n" for line, _ in run))
    (folder / "maintain.out").write_text("".join(answer + "\n" for _, answer in run))


def main():
    words = argparse.ArgumentParser(description=__doc__.splitlines()[0])
    words.add_argument("program")
    words.add_argument("--seed", type=int, default=1)
    words.add_argument("--count", type=int, default=2000)
    words.add_argument("--keep", type=pathlib.Path)
    asked = words.parse_args()
    if asked.keep:
        keep(asked.keep, random.Random(asked.seed))
    failed = changed = 0
    numbers = range(asked.seed, asked.seed + asked.count)
    with multiprocessing.Pool() as pool:
        for changes, text in pool.imap(functools.partial(compared, asked.program), numbers, chunksize=20):
            changed += changes
            if text:
                print(text)
                failed += 1
    print(f"{asked.count} runs with {changed} changes, {failed} differ")
    sys.exit(failed != 0)


if __name__ == "__main__":
    main()
