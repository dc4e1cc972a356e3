#!/usr/bin/env python3
"""instructions.py PROGRAM [SCRIPT..]: how many instructions a turn of a script takes in the host, in jimsh and in tclsh 8.6, side by side.

The scripts are those of bench/scripts and of bench/untuned, which nobody looks at when something is made faster, or those named. Each is run under
`valgrind --tool=callgrind` with two numbers of turns, and what the greater one takes more is divided by the turns that it has more. The counts are the same
on each run of a program, whatever else the machine does, so that two programs can be compared by them. What a script prints has to be the same in all three.
The ratios are the host's count to each other one; where jimsh or tclsh isn't at hand, its column is left out."""
import os, pathlib, re, shutil, subprocess, sys, tempfile
from timing import printed, session

HERE = pathlib.Path(__file__).resolve().parent
# Of each script the words that say how often it turns, two numbers in their place, how many turns that makes, and what one is.
TURNS = {
    "appending": ("grow 180", (1, 3), lambda n: 12_000 * n, "piece appended"),
    "arrays": ("count 1000000", (5_000, 15_000), lambda n: n, "key counted"),
    "foreach-switch": ("< 40000", (300, 900), lambda n: 10 * n, "item told apart"),
    "nested-loops": ("sum 1400", (100, 200), lambda n: n * n, "iteration of the inner loop"),
    "recursive-procedures": ("< 120", (2, 8), lambda n: n, "value of ackermann 2 6"),
    "sorted-lists": ("< 80", (1, 3), lambda n: n, "list of 4,000 items"),
    "strings": ("< 6000", (50, 150), lambda n: n, "text of 81 characters"),
    "markup": ("< 4000", (50, 150), lambda n: n, "table of three rows"),
    "own-loops": ("< 5000", (50, 150), lambda n: n, "pair of loops"),
    "queue": ("< 300", (2, 6), lambda n: 150 * n, "job served"),
    "settings-reader": ("< 3000", (20, 60), lambda n: n, "text of ten lines"),
    "sieve": ("< 60", (1, 3), lambda n: n, "sieve of 3,000"),
    "states": ("< 6000", (50, 150), lambda n: 16 * n, "word followed"),
    "stock": ("< 400", (4, 12), lambda n: n, "table of forty rows"),
}


def counted(words, text, environment=None):
    """The instructions of a run that has to end well, and what it wrote."""
    ended = subprocess.run(["valgrind", "--tool=callgrind", "--callgrind-out-file=/dev/null", *words], input=text, capture_output=True, env=environment)
    found = re.search(rb"Collected : (\d+)", ended.stderr)
    if not found or ended.returncode:
        sys.exit("%s doesn't end well: %r %r" % (words[0], ended.stdout[:200], ended.stderr[-200:]))
    return int(found[1]), ended.stdout


def in_host(program, script):
    count, section = counted([program], session(1, (100, 50), script))
    return count, printed(section, 1)


def in_shell(shell, script):
    with tempfile.NamedTemporaryFile("w", suffix=".tcl") as file:
        file.write(script)
        file.flush()
        return counted([shell, file.name], b"")


def main():
    if len(sys.argv) < 2:
        sys.exit(__doc__)
    program, failed = os.path.abspath(sys.argv[1]), False
    runs = {"host": lambda script: in_host(program, script)}
    runs.update((shell, lambda script, shell=shell: in_shell(shell, script)) for shell in ("jimsh", "tclsh") if shutil.which(shell))
    for name in sys.argv[2:] or TURNS:
        words, numbers, turns, unit = TURNS[name]
        text = next(HERE.glob("*/%s.tcl" % name)).read_text()
        scripts = [text.replace(words, "%s %d" % (words.split()[0], number)) for number in numbers]
        counts, wrote = {}, set()
        for where, run in runs.items():
            (few, first), (many, second) = map(run, scripts)
            counts[where] = (many - few) / (turns(numbers[1]) - turns(numbers[0]))
            wrote.add((first, second))
        shown = "".join("  %s %10.0f %6.2f" % (where, count, counts["host"] / count) for where, count in counts.items() if where != "host")
        failed |= len(wrote) > 1
        print("%-22s host %10.0f%s  for each %s%s" % (name, counts["host"], shown, unit, "" if len(wrote) == 1 else "  PRINTS SOMETHING ELSE"), flush=True)
    sys.exit(1 if failed else 0)


if __name__ == "__main__":
    main()
