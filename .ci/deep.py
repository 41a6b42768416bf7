"""Deep inputs in little stack: a long condition and a tower of views, by each program that is named, on 1 MB of stack.

    python3 .ci/deep.py PROGRAM..

What a text may say is bounded by its 65,536 bytes, and views by the 1,024 items of a catalog. Both are tried to their ends, and the
whole transcript is compared.
"""

import resource
import subprocess
import sys

STACK = 1 << 20
LONGEST_TEXT = 65536
MOST_ITEMS = 1024
TABLES = 4
SECONDS = 600


def limited():
    resource.setrlimit(resource.RLIMIT_STACK, (STACK, STACK))


class Script:
    """A script and the transcript that it should have."""

    def __init__(self):
        self.lines = []
        self.replies = []
        self.rounds = 0
        self.writes = 0

    def write(self, statement, answer):
        """A command of session 1, and the round that carries it out."""
        self.writes += 1
        self.rounds += 1
        self.lines += [f"s1: {statement}", "commit"]
        self.replies += [
            f"s1#{self.writes} queued",
            f"round {self.rounds} at {self.rounds}: 1 commands",
            f"round {self.rounds} done",
            f"s1#{self.writes} at {self.rounds}: {answer}",
        ]

    def read(self, query, rows):
        """A query of session 2, the first one, and its rows."""
        self.lines += [f"s2: {query}", "settle"]
        self.replies += [
            f"s2#1 reading at {self.rounds}, peek 1",
            f"s2#1 at {self.rounds}: {len(rows)} rows",
        ] + [f"  {row}" for row in rows]


def filled(head, member, joint):
    """The longest text of a head and of members with a joint between each two, and how many members it has."""
    members = (LONGEST_TEXT - len(head) + len(joint)) // (len(member) + len(joint))
    return head + joint.join([member] * members), members


def conditions():
    """A DELETE of as many conditions as a text holds."""
    script = Script()
    script.write("INSERT INTO kv VALUES (1, 10), (2, 20), (3, 30)", "inserted 3")
    text, _ = filled("DELETE FROM kv WHERE k=3 OR ", "k=1", " OR ")
    script.write(text, "deleted 2")
    script.read("SELECT * FROM kv", ["1 x (2, 20)"])
    return script


def views(condition):
    """As many views as a catalog holds, each over the one before, a read through them, and a text full of them."""
    script = Script()
    script.write("INSERT INTO kv VALUES (5000, 10), (5000, 10)", "inserted 2")
    below = "kv"
    for number in range(1, MOST_ITEMS - TABLES + 1):
        where = f" WHERE k > {number}" if condition else ""
        script.write(f"CREATE VIEW v{number} AS SELECT k, v FROM {below}{where}", "created")
        below = f"v{number}"
    script.read(f"SELECT * FROM {below}", ["2 x (5000, 10)"])
    text, members = filled("", f"SELECT * FROM {below}", " UNION ALL ")
    script.lines.append(f"s2: {text}")
    script.replies.append(f"s2#2 refused 7: has {members}")
    return script


def tried(program, name, script):
    """Whether a program gives a script its transcript."""
    text = "".join(f"{line}\n" for line in script.lines)
    done = subprocess.run(
        [program, "script"], input=text.encode(), stdout=subprocess.PIPE, preexec_fn=limited, timeout=SECONDS
    )
    same = done.returncode == 0 and done.stdout.decode().splitlines() == script.replies
    print(f"{name}: {'as it should be' if same else f'differs (status {done.returncode})'}")
    return same


def main():
    scripts = {
        "9,300 conditions": conditions(),
        "1,020 views": views(False),
        "1,020 views with a condition each": views(True),
    }
    fine = [tried(program, name, script) for program in sys.argv[1:] for name, script in scripts.items()]
    return 0 if all(fine) else 1


sys.exit(main())
