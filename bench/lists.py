#!/usr/bin/env python3
"""lists.py PROGRAM [NAME..]: how the time of the commands on lists grows with the list, in the host and, where it is at hand, in tclsh 8.6.

Each command runs in a loop over lists of 1,000 to 16,000 items, which double four times. Those that touch a few items are called once for each item,
those that go over the whole list 20 times. What the scripts print has to be the same in both. The times are those of the processor in milliseconds,
the least of three runs, less those of making the list; the exponent is that of the power of n that fits the times best."""
import math, os, shutil, sys, tempfile
from timing import least, printed, session, well

SIZES = [1000, 2000, 4000, 8000, 16000]
MADE = "set l {}\nfor {set i 0} {$i < $n} {incr i} {lappend l [expr {$i % 90 + 10}]}\n"
READ = "set l {%s}\n"
EACH = "for {set i 0} {$i < $n} {incr i} {%s}\n"
WHOLE = "for {set i 0} {$i < 20} {incr i} {%s}\n"

# Each command: how its list is made, and what is run.
COMMANDS = {
    "lindex": (MADE, EACH % "set x [lindex $l $i]"),
    "lindex, read": (READ, EACH % "set x [lindex $l $i]"),
    "llength": (MADE, EACH % "set x [llength $l]"),
    "llength, read": (READ, EACH % "set x [llength $l]"),
    "lrange": (MADE, EACH % "set x [lrange $l $i [expr {$i + 3}]]"),
    "lrange, read": (READ, EACH % "set x [lrange $l $i [expr {$i + 3}]]"),
    "lreplace": (MADE, EACH % "set l [lreplace $l $i $i 7]") ,
    "lreplace, read": (READ, EACH % "set l [lreplace $l $i $i 7]"),
    "linsert": ("set l {}\n", EACH % "set l [linsert $l 0 ab]"),
    "lappend": ("set l {}\n", EACH % "lappend l ab"),
    "foreach": (MADE, WHOLE % "foreach x $l {incr sum}"),
    "foreach, left": (MADE, EACH % "foreach x $l {break}"),
    "lsearch": (MADE, WHOLE % "set x [lsearch -exact $l none]"),
    "lsort": (MADE, WHOLE % "set x [lsort $l]"),
    "lsort -integer": (MADE, WHOLE % "set x [lsort -integer $l]"),
    "split": (MADE, WHOLE % "set x [split $l 1]"),
    "join": (MADE, WHOLE % "set x [join $l ,]"),
    "string index": (MADE, EACH % "set x [string index $l $i]"),
}


def host_run(program, script):
    """The processor time of a script in milliseconds, and what it printed, without its newlines."""
    time, section = well([program], session(1, (100, 50), script))
    return 1000 * time, printed(section, 1).replace(b"\n", b"")


def tclsh_run(script):
    with tempfile.NamedTemporaryFile("w", suffix=".tcl") as file:
        file.write(script)
        file.flush()
        time, told = well(["tclsh", file.name])
    return 1000 * time, told.replace(b"\n", b"")


def exponent(times):
    """The slope of the line that fits the logarithms best."""
    points = [(math.log(n), math.log(max(time, 0.01))) for n, time in zip(SIZES, times)]
    x, y = (sum(values) / len(points) for values in zip(*points))
    return sum((a - x) * (b - y) for a, b in points) / sum((a - x) ** 2 for a, _ in points)


def main():
    if len(sys.argv) < 2:
        sys.exit(__doc__)
    program = os.path.abspath(sys.argv[1])
    sides = {"host": lambda script: host_run(program, script)}
    if shutil.which("tclsh"):
        sides["tclsh"] = tclsh_run
    failed = False
    for name in sys.argv[2:] or COMMANDS:
        making, loop = COMMANDS[name]
        times, printed = {side: [] for side in sides}, []
        for n in SIZES:
            items = " ".join(str(number % 90 + 10) for number in range(n))
            begun = f"set n {n}\nset x {{}}\nset sum 0\n" + (making % items if making == READ else making)
            ending = 'puts "[string length $l] [string length $x] $sum"\n'
            for side, run in sides.items():
                made, _ = least(lambda: run(begun + ending))
                time, said = least(lambda: run(begun + loop + ending))
                times[side].append(time - made)
                printed.append((n, said))
        failed |= len(set(printed)) != len(SIZES)
        told = "  ".join(f"{side} {exponent(times[side]):5.2f} (" + " ".join(f"{time:.1f}" for time in times[side]) + ")" for side in sides)
        print(f"{name:15} {told}" + ("  PRINTS SOMETHING ELSE" if len(set(printed)) != len(SIZES) else ""), flush=True)
    sys.exit(1 if failed else 0)


if __name__ == "__main__":
    main()
