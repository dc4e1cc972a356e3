#!/usr/bin/env python3
"""layouts.py PROGRAM [CHANGES]: times layouts of 128, 256 and 510 windows that no change spares, and tells how they grow.

In one application a window is given another size and laid out again, 400 times if no number is given. The others are slaves of one master that all expand, at one
side (`expanding`), or at the left and at the top in turn (`turned`); those across are as wide as the others, or each a little wider than those behind it, so
that none of them may be passed over (`narrowing`); or frames in frames, with the window in the innermost (`nested`), also where a binding waits for each Configure
(`bound`). A line tells for each size the milliseconds of all changes, those of the processor, the least of three runs, less those of a run without changes; then
the power of the number of windows by which they grow, over all sizes and from the middle one to the last."""
import math, os, sys
from timing import least, printed, session, timed

SIZES, WINDOW = (128, 256, 510), (8000, 8000)
SLAVES = "for {set i 1} {$i < %d} {incr i} {pack [frame .f$i -width %s -height %s] -expand 1 -side %s}; frame .last -width 4 -height 4; pack .last"
SIDE = "[lindex {left top} [expr {$i %% 2}]]"
FRAMES = "set p {}; for {set i 1} {$i < %d} {incr i} {append p .f; pack [frame $p]}; set last $p.last; frame $last -width 4 -height 4; pack $last"
KINDS = {
    "expanding": SLAVES.replace("%s", "4", 2).replace("%s", "left") + "; set last .last",
    "turned": SLAVES.replace("%s", "4", 2).replace("%s", SIDE) + "; set last .last",
    "narrowing": SLAVES.replace("%s", "[expr {4 + ($i %% 2) * 6 * (510 - $i)}]", 1).replace("%s", "4", 1).replace("%s", SIDE) + "; set last .last",
    "nested": FRAMES,
    "bound": FRAMES + "; bind all <Configure> {#}",
}
CHANGE = "for {set i 0} {$i < %d} {incr i} {$last configure -width [expr {5 + $i %% 2}]; update}"


def time_of(program, script, changes):
    """The processor time of a session that makes windows and changes one so often."""
    text = "\n".join([script, "update", CHANGE % changes, "puts [winfo width $last]"])
    taken, written = least(lambda: timed([program], session(1, WINDOW, text)))
    if printed(written, 1) != b"%d\n" % (4 if changes == 0 else 5 + (changes - 1) % 2):
        sys.exit("the application wrote something else: " + written.decode()[:500])
    return taken


def main():
    if len(sys.argv) not in (2, 3):
        sys.exit(__doc__)
    program, changes = os.path.abspath(sys.argv[1]), int(sys.argv[2]) if len(sys.argv) > 2 else 400
    for name, script in KINDS.items():
        times = [time_of(program, script % size, changes) - time_of(program, script % size, 0) for size in SIZES]
        power = lambda low: math.log(times[-1] / times[low]) / math.log(SIZES[-1] / SIZES[low])
        print("%-10s %s ms  exponent %.2f, at last %.2f" % (name, "  ".join("%d: %7.1f" % (size, time * 1e3) for size, time in zip(SIZES, times)), power(0), power(1)), flush=True)


if __name__ == "__main__":
    main()
