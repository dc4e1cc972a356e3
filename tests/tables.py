#!/usr/bin/env python3
"""tables.py: a program of tables tells every answer that differs and every line that is none, and passes the tables that agree.

The program is test_tcl, as the gate left it in crates/test_tcl/out. Each case is a few tables of commands, what the program has to print of them,
and what its error has to say, where it has to fail: the stored tables alone would pass a program that takes any answer."""
import pathlib, subprocess, sys, tempfile
from programs import TABLES_OF_TCL, built

PROGRAM = built(TABLES_OF_TCL)
DIFFER = "some answers differ"
LONE = "an answer with no question above it"

# Each case: what it shows, its tables in turn, the lines that are printed, and what the error says, none where none has to come.
CASES = [
    ("an empty table", [""], ["a: 0 answers, 0 wrong"], None),
    ("words to the reader alone", ["# nothing is asked\n"], ["a: 0 answers, 0 wrong"], None),
    ("answers that agree", ["? 0 set|x|1\n=1\n# c\n? 0 set|x\n=1\n? 0 set|y\n!can't read \"y\": no such variable\n"], ["a: 3 answers, 0 wrong"], None),
    ("no newline at the end", ["? 0 set|x|1\n=1"], ["a: 1 answers, 0 wrong"], None),
    ("a question without an answer is asked", ["? 0 set|x|1\n? 0 set|x\n=1\n"], ["a: 1 answers, 0 wrong"], None),
    ("an empty line begins anew", ["? 0 set|x|1\n\n? 0 set|x\n!can't read \"x\": no such variable\n"], ["a: 1 answers, 0 wrong"], None),
    ("pictures of control characters", ["? 0 set|x|a␊b␉\n=a␊b␉\n? 0 string|length|a␊b␉\n=4\n"], ["a: 2 answers, 0 wrong"], None),
    ("the blank behind the mark alone is none of the question's", ["?0 set|x|1\n=1\n? 0 set|x| \n= \n"], ["a: 2 answers, 0 wrong"], None),
    ("another result", ["? 0 set|x|1\n=2\n"], ["a:2: 0 set|x|1: =1 and not =2", "a: 1 answers, 1 wrong"], DIFFER),
    ("a blank more", ["? 0 set|x|1\n= 1\n"], ["a:2: 0 set|x|1: =1 and not = 1", "a: 1 answers, 1 wrong"], DIFFER),
    ("another mark", ["? 0 set|x|1\n!1\n"], ["a:2: 0 set|x|1: =1 and not !1", "a: 1 answers, 1 wrong"], DIFFER),
    ("another error", ["? 0 set|x\n!no\n"], ["a:2: 0 set|x: !can't read \"x\": no such variable and not !no", "a: 1 answers, 1 wrong"], DIFFER),
    ("pictures in what differs", ["? 0 set|x|a␊b\n=a\n"], ["a:2: 0 set|x|a␊b: =a␊b and not =a", "a: 1 answers, 1 wrong"], DIFFER),
    ("what was left before an empty line", ["? 0 set|x|1\n\n? 0 set|x\n=1\n"],
     ["a:4: 0 set|x: !can't read \"x\": no such variable and not =1", "a: 1 answers, 1 wrong"], DIFFER),
    ("each that differs, and those behind it", ["? 0 set|x|1\n=2\n? 0 set|x\n=1\n? 0 set|x\n=3\n"],
     ["a:2: 0 set|x|1: =1 and not =2", "a:6: 0 set|x: =1 and not =3", "a: 3 answers, 2 wrong"], DIFFER),
    ("one of two tables", ["? 0 set|x|1\n=2\n", "? 0 set|x|1\n=1\n"],
     ["a:2: 0 set|x|1: =1 and not =2", "a: 1 answers, 1 wrong", "b: 1 answers, 0 wrong"], DIFFER),
    ("the other of two tables", ["? 0 set|x|1\n=1\n", "? 0 set|x|1\n=2\n"],
     ["a: 1 answers, 0 wrong", "b:2: 0 set|x|1: =1 and not =2", "b: 1 answers, 1 wrong"], DIFFER),
    ("an answer alone", ["=1\n"], [], LONE),
    ("a second answer", ["? 0 set|x|1\n=1\n=1\n"], [], LONE),
    ("an answer behind words to the reader", ["? 0 set|x|1\n# c\n=1\n"], [], LONE),
    ("an answer behind an empty line", ["? 0 set|x|1\n\n=1\n"], [], LONE),
    ("a question that is none", ["? none\n"], [], "a word that is no number"),
    ("a command that is none", ["? 0 nothing|x\n=\n"], [], "no such command"),
    ("a table behind one that is none", ["? 0 set|x|1\n=1\n", "=1\n"], ["a: 1 answers, 0 wrong"], LONE),
]


def faults(program, tables, printed, error):
    """What is wrong with a run over tables, whose names are a, b and so on, in the folder of commands."""
    with tempfile.TemporaryDirectory() as folder:
        commands = pathlib.Path(folder, "commands")
        commands.mkdir()
        names = [f"commands/{letter}" for letter, _ in zip("abc", tables)]
        for name, table in zip(names, tables):
            pathlib.Path(folder, name + ".table").write_text(table)
        ended = subprocess.run([program, *names], cwd=folder, capture_output=True, text=True, timeout=60)
    if ended.stdout.splitlines() != [f"commands/{line}" for line in printed]:
        yield f"printed {ended.stdout!r}"
    if (ended.returncode != 0) != (error is not None):
        yield f"ended with status {ended.returncode}"
    if error is not None and error not in ended.stderr:
        yield f"its error says {ended.stderr!r}"


def unread(program):
    """What is wrong with a run over a table of no part, and over one that isn't there."""
    with tempfile.TemporaryDirectory() as folder:
        pathlib.Path(folder, "none.table").write_text("")
        for name, error in (("none", "no such table"), ("lacking", "file lacking.table")):
            ended = subprocess.run([program, name], cwd=folder, capture_output=True, text=True, timeout=60)
            if ended.returncode == 0 or ended.stdout or error not in ended.stderr:
                yield f"{name}: {ended.returncode} {ended.stdout!r} {ended.stderr!r}"


def main():
    if len(sys.argv) != 1:
        sys.exit(__doc__)
    told = [(what, list(faults(PROGRAM, *case))) for what, *case in CASES] + [("what can't be read", list(unread(PROGRAM)))]
    for what, found in told:
        print("".join(f"{what}: {fault}\n" for fault in found), end="")
    failed = sum(bool(found) for _, found in told)
    print(f"{len(told) - failed} passed, {failed} failed")
    return 1 if failed else 0


if __name__ == "__main__":
    sys.exit(main())
