#!/usr/bin/env python3
"""events.py PROGRAM [EVENTS]: times events by how many bindings there are, in 1 and in 16 applications, in the host and in wish 8.6 side by side.

Each application has 36 labels in six rows, with all 43 or, by more frames, 512 windows, and 10, 16, 256, 1,000 or 4,076 bindings (the most, since
the classes of widgets have 20 more). Seven of them, of the tag `all`, match one event each of a click, a motion, a crossing and two keys, and count
it; the others, of 40 tags, are of keys that nobody presses. EVENTS lines (100,000 if no number is given) come to the host: in turn 100 for each application, six of ten of the pointer and four
of keys. The same events are then asked for by `event generate` in the host and in wish, application by application. The times are those of the
processor in microseconds an event, the least of three runs, less those of the same applications without events. The ratio is the host's time to
that of wish, whose display takes time of its own that isn't counted; where wish or Xvfb isn't at hand the host is timed alone."""
import itertools, os, sys
from timing import Wish, beside, corner, least, printed, session, timed

SIZE, CELL, ROWS, VISIT = (240, 100), (40, 16), 6, 10
PANELS = ((10, 43), (16, 43), (256, 43), (1000, 43), (4076, 43), (10, 512))
COUNTED = ["<Motion>", "<Enter>", "<Leave>", "<Button>", "<ButtonRelease>", "<Key>", "<KeyRelease>"]
MODIFIERS = ["", "Control-", "Shift-", "Mod1-", "Control-Shift-", "Control-Mod1-", "Shift-Mod1-", "Control-Shift-Mod1-"]
LABELS = [".r%d.l%d" % pair for pair in itertools.product(range(ROWS), range(ROWS))]


def panel(bindings, windows):
    """The commands that make the windows and the bindings."""
    for row in range(ROWS):
        yield "pack [frame .r%d] -anchor w" % row
    for label in LABELS:
        yield "pack [label %s -text x -width 5 -borderwidth 0 -padx 0 -pady 0] -side left" % label
    if windows > ROWS + len(LABELS) + 1:
        yield "pack [frame .more] -anchor w"
        for number in range(ROWS + len(LABELS) + 2, windows):
            yield "pack [frame .more.f%d -width 1 -height 1] -side left" % number
    yield "set counted 0"
    for sequence in COUNTED:
        yield "bind all %s {incr counted}" % sequence
    yield "set others %d" % (bindings - len(COUNTED))
    yield "foreach sequence {%s} {foreach tag {%s} {if {$others > 0} {bind $tag $sequence {puts never}; incr others -1}}}" % (
        " ".join("<%sKey-%s>" % pair for pair in itertools.product(MODIFIERS, "nopqrstuvwxyz")), " ".join([*LABELS, ".", "Label", "Frame", "Tk"]))


def lines(applications, cycles):
    """The lines of the session: a crossing, motions, a click and two keys for each cycle, which stay in one row of labels."""
    moment = 0
    for cycle in range(cycles):
        number = cycle // VISIT % applications
        if cycle % VISIT == 0:
            yield "%d focus p%d" % (moment, number)
        x, y = corner(number, SIZE)
        x += cycle % ROWS * CELL[0]
        for line in ("move %d %d" % (x + 5, y + 5), "move %d %d" % (x + 9, y + 6), "press 1", "move %d %d" % (x + 12, y + 9), "release 1",
                     "move %d %d" % (x + 7, y + 3), "keydown a", "keyup a", "keydown b", "keyup b"):
            moment += 1
            yield "%d %s" % (moment, line)


def generated(cycles):
    """The events of these lines by commands, for one application."""
    events = ["<Leave> -x 5 -y 5", "<Enter> -x 5 -y 5", "<Motion> -x 9 -y 6", "<Button-1> -x 9 -y 6", "<Motion> -x 12 -y 9 -state 256", "<ButtonRelease-1> -x 12 -y 9", "<Motion> -x 7 -y 3",
              "<Key-a>", "<KeyRelease-a>", "<Key-b>", "<KeyRelease-b>"]
    return "\n".join(["for {set i 0} {$i < %d} {incr i} {" % cycles, *("event generate .r0.l%d %s" % (3 if place else 2, event) for place, event in enumerate(events)), "}", "puts $counted"])


def counts(applications, cycles):
    """How many events each application counts: eleven a cycle; where the pointer comes from another one or leaves for it, all three windows are told."""
    visits = [range(start, min(start + VISIT, cycles)) for start in range(0, cycles, VISIT)]
    for number in range(applications):
        own = visits[number::applications]
        shared = applications > 1 and len(visits) > 1
        total = sum(len(visit) * 11 for visit in own)
        if not own:
            yield 0
        elif shared:
            yield total + 4 * len(own) - (3 if own[-1] is visits[-1] else 0)
        else:
            yield total + 1


def by_lines(program, applications, panel, cycles):
    """The time of the lines, and whether each application counted its events."""
    end = cycles * 10 + 1
    script = panel + "\nafter %d {puts $counted}" % end
    idle, _ = least(lambda: timed([program], session(applications, SIZE, script, (), end)))
    time, sections = least(lambda: timed([program], session(applications, SIZE, script, lines(applications, cycles), end)))
    wanted = b"".join(b"%d\n" % number for number in counts(applications, cycles))
    return max(time - idle, 0.001), printed(sections, applications) == wanted


def by_commands(run, applications, panel, cycles):
    """The time of `event generate`, and whether each application counted its events."""
    idle, _ = least(lambda: run(panel + "\nupdate"))
    time, told = least(lambda: run(panel + "\nupdate\n" + generated(cycles)))
    return max(time - idle, 0.001), told == b"%d\n" % (cycles * 11) * applications


def measured(program, wish, applications, panel, cycles):
    """The times of a line, and of a generated event in the host and in wish, in microseconds, and whether all events were counted."""
    own = cycles // applications
    in_host = lambda script: (*(ran := timed([program], session(applications, SIZE, script)))[:-1], printed(ran[-1], applications))
    routed, *first = by_lines(program, applications, panel, cycles)
    asked, *second = by_commands(in_host, applications, panel, own)
    shown, *third = by_commands(lambda script: wish.timed(applications, SIZE, script), applications, panel, own) if wish.server else (None, True)
    each = lambda time: None if time is None else time / (applications * own * 11) * 1e6
    return routed / (cycles * 10) * 1e6, each(asked), each(shown), all(first + second + third)


def main():
    if len(sys.argv) not in (2, 3):
        sys.exit(__doc__)
    program, cycles = os.path.abspath(sys.argv[1]), max(16, (int(sys.argv[2]) if len(sys.argv) > 2 else 100000) // 10)
    failed = False
    with Wish() as wish:
        for applications, (bindings, windows) in itertools.product((1, 16), PANELS):
            line, asked, shown, as_wanted = measured(program, wish, applications, "\n".join(panel(bindings, windows)), cycles)
            failed |= not as_wanted
            print("%2d applications of %3d windows with %4d bindings: us a line %8.2f; us a generated event %s%s" % (
                applications, windows, bindings, line, beside(asked, shown), "" if as_wanted else "  COUNTS SOMETHING ELSE"), flush=True)
    sys.exit(1 if failed else 0)


if __name__ == "__main__":
    main()
