#!/usr/bin/env python3
"""side_by_side.py PROGRAM [STEPS]: times 16 applications in one session beside 16 sessions of one application each.

Each script of bench/scripts is what all 16 run, with a budget of STEPS steps each (100,000 if no number is given), so that all tables and each turn
are shared by 16. What each writes has to be what it writes by itself. The times are those of the processor, in seconds, the least of three runs, and
what the program takes for a session that does nothing is taken off once for each session; the ratio is the time of the one session to that of the 16."""
import os, pathlib, sys
from timing import least, well

HERE = pathlib.Path(__file__).resolve().parent
COUNT = 16


def session_of(script, steps, numbers):
    """The script in an application of each of these numbers."""
    lines = [b"tkhost 1"]
    for number in numbers:
        lines += [b"app p%d %d %d 50 50 %d" % (number, number % 4 * 50, number // 4 * 50, steps), b"script %d" % (script.count(b"\n") + 1), script]
    return b"\n".join(lines + [b"events", b"0 end", b""])


def one_by_one(program, script, steps):
    """Each application in a session of its own."""
    runs = [well([program], session_of(script, steps, [number])) for number in range(COUNT)]
    return sum(time for time, _ in runs), b"".join(written for _, written in runs)


def main():
    if len(sys.argv) not in (2, 3):
        sys.exit(__doc__)
    program, steps = os.path.abspath(sys.argv[1]), int(sys.argv[2]) if len(sys.argv) > 2 else 100000
    idle = least(lambda: well([program], session_of(b"", 0, [0])))[0]
    failed = False
    for script in sorted((HERE / "scripts").glob("*.tcl")):
        text = script.read_bytes()
        together, written = least(lambda: well([program], session_of(text, steps, range(COUNT))))
        alone, wanted = least(lambda: one_by_one(program, text, steps))
        together, alone = max(together - idle, 0.001), max(alone - COUNT * idle, 0.001)
        failed |= written != wanted
        print(f"{script.stem:22} together {together:7.3f}  alone {alone:7.3f}  ratio {together / alone:5.2f}" + ("" if written == wanted else "  WRITES SOMETHING ELSE"))
    sys.exit(1 if failed else 0)


if __name__ == "__main__":
    main()
