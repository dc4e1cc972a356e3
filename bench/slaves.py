#!/usr/bin/env python3
"""slaves.py PROGRAM [WINDOWS]: times windows that are all slaves of one master, by how many there are and in which order they go.

In each of 16 applications 8, 64 and 511 frames are made and packed in the main window and destroyed one by one, as often as it takes until WINDOWS
frames were made in all (131,072 if no number is given). They go in the order in which they stand, in reverse, or so that the next to go always
stands in the middle. The times are those of the processor in microseconds for a frame made, packed and destroyed, the least of three runs, less those
of the same applications that make none."""
import os, sys
from timing import least, printed, session, timed

SIZE, APPLICATIONS = (100, 50), 16
# What is packed in front of those that stand there, by the order in which they go.
IN_FRONT = {"in order": "0", "in reverse": "1", "from the middle": "$i % 2 == 0"}


def script_of(count, rounds, order):
    return "\n".join([
        "set made 0", "for {set round 0} {$round < %d} {incr round} {" % rounds, "set first {}", "for {set i 0} {$i < %d} {incr i} {" % count, "frame .w$i",
        "if {%s && $first ne {}} {pack .w$i -before $first; set first .w$i} else {pack .w$i; if {$first eq {}} {set first .w$i}}" % IN_FRONT[order], "incr made", "}",
        "for {set i 0} {$i < %d} {incr i} {destroy .w$i}" % count, "}", "puts $made"])


def time_of(program, script, wanted):
    taken, written = least(lambda: timed([program], session(APPLICATIONS, SIZE, script)))
    if printed(written, APPLICATIONS) != b"%d\n" % wanted * APPLICATIONS:
        sys.exit("an application wrote something else: " + written.decode()[:500])
    return taken


def main():
    if len(sys.argv) not in (2, 3):
        sys.exit(__doc__)
    program, windows = os.path.abspath(sys.argv[1]), int(sys.argv[2]) if len(sys.argv) > 2 else 131_072
    for order in IN_FRONT:
        none = time_of(program, script_of(1, 0, order), 0)
        for count in (8, 64, 511):
            rounds = max(windows // APPLICATIONS // count, 1)
            taken = time_of(program, script_of(count, rounds, order), count * rounds) - none
            print("%3d frames in each of %d applications, %s: %.2f" % (count, APPLICATIONS, order, taken * 1e6 / (count * rounds * APPLICATIONS)))


if __name__ == "__main__":
    main()
