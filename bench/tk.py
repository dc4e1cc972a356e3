#!/usr/bin/env python3
"""tk.py PROGRAM [NAME..]: how many instructions Tk's work takes in the host and in wish 8.6, side by side, at three sizes.

The ten scripts are those of bench/tk, or those named. Each begins with its size (bindings, windows, characters, items or timers) and its number of turns, and
is run under `valgrind --tool=callgrind` with two numbers of turns; what the greater one takes more is divided by the turns that it has more. What it prints has to
be the same in both. A line tells for each size the instructions a turn in the host and in wish, and their ratio; then the exponent of the host's growth, from the
least size to the greatest: the power of the size by which a turn grows. wish runs under a virtual display, whose instructions aren't counted; where wish or Xvfb isn't
at hand, the host is counted alone."""
import math, os, pathlib, sys, tempfile
from instructions import counted
from timing import Wish, printed, session

HERE = pathlib.Path(__file__).resolve().parent
SIZES, WINDOW = (25, 100, 400), (640, 480)
# An application has at most 256 timers.
TIMERS = (16, 64, 250)
# Of each script two numbers of turns, and what a turn is.
TURNS = {
    "keys": ((20, 120), "two keys"),
    "virtual-events": ((20, 120), "virtual event"),
    "unbound": ((20, 120), "release of a button"),
    "entry": ((20, 120), "insertion and deletion"),
    "listbox": ((1, 3), "listbox filled and emptied"),
    "rows": ((1, 3), "panel made and destroyed"),
    "one-label": ((10, 60), "text changed and laid out"),
    "linked": ((10, 60), "variable set and laid out"),
    "timers": ((20, 120), "timer listed and called off, and an idle script"),
    "packing": ((5, 30), "four changes, each laid out"),
}
# Whose turn is of the size's own number of items or windows: its exponent is that of one of them.
WHOLE = {"listbox", "rows"}


def in_host(program, text):
    count, section = counted([program], session(1, WINDOW, text))
    return count, printed(section, 1)


def in_wish(wish, text):
    first = "wm geometry . %dx%d; pack propagate . 0; update; focus -force .; update\n" % WINDOW
    with tempfile.NamedTemporaryFile("w", suffix=".tcl") as file:
        file.write(first + text + "\nexit\n")
        file.flush()
        return counted(["wish", file.name], b"", wish.environment)


def of_a_turn(run, text, size, turns):
    """The instructions of a turn, and what both runs wrote."""
    (few, first), (many, second) = (run("set size %d; set turns %d\n%s" % (size, number, text)) for number in turns)
    return (many - few) / (turns[1] - turns[0]), (first, second)


def main():
    if len(sys.argv) < 2:
        sys.exit(__doc__)
    program, failed = os.path.abspath(sys.argv[1]), False
    with Wish() as wish:
        runs = {"host": lambda text: in_host(program, text)}
        if wish.server:
            runs["wish"] = lambda text: in_wish(wish, text)
        for name in sys.argv[2:] or TURNS:
            turns, unit = TURNS[name]
            text = (HERE / "tk" / (name + ".tcl")).read_text()
            sizes = TIMERS if name == "timers" else SIZES
            hosts, shown = [], ""
            for size in sizes:
                counts, wrote = {}, set()
                for where, run in runs.items():
                    counts[where], written = of_a_turn(run, text, size, turns)
                    wrote.add(written)
                hosts.append(counts["host"] / (size if name in WHOLE else 1))
                shown += "  %d: %s" % (size, " ".join("%s %.0f" % pair for pair in counts.items()))
                shown += " %.2f" % (counts["host"] / counts["wish"]) if wish.server else ""
                shown += "" if len(wrote) == 1 else " PRINTS SOMETHING ELSE"
                failed |= len(wrote) > 1
            exponent = math.log(max(hosts[-1], 1) / max(hosts[0], 1)) / math.log(sizes[-1] / sizes[0])
            print("%-15s%s  exponent %.2f  for each %s" % (name, shown, exponent, unit), flush=True)
    sys.exit(1 if failed else 0)


if __name__ == "__main__":
    main()
