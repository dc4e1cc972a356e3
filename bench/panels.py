#!/usr/bin/env python3
"""panels.py PROGRAM [WINDOWS]: times panels of 8, 64 and 512 windows in 1 and in 16 applications, in the host and in wish 8.6 side by side.

Each application makes its panel (a row for each eight windows: a frame, and in it labels, entries and buttons), packs it and lays it out, and
destroys it, as often as it takes until WINDOWS windows were made in all (32,768 if no number is given). Then all is run again, and the text of one
label is changed ten times between, with a layout after each. The times are those of the processor in microseconds, the least of three runs, less
those of the same applications that make no panel: for a window made, packed, laid out and destroyed; and for a change with its layout. The ratio is
the host's time to that of wish, whose display takes time of its own that isn't counted; where wish or Xvfb isn't at hand the host is timed alone."""
import os, sys
from timing import Wish, beside, least, printed, session, timed

SIZE, CHANGES = (1200, 2000), 10
KINDS = ["label %s -text {Row %d}", "entry %s -width 8", "button %s -text Go -command {set pressed %d}", "label %s -text {Value %d} -width 9"]


def made(count):
    """The commands that make and pack a panel; the main window is one of its windows."""
    for number in range(1, count):
        if number % 8 == 1:
            row = ".r%d" % number
            yield "frame %s -borderwidth 1; pack %s -fill x" % (row, row)
        else:
            path = "%s.w%d" % (row, number)
            kind = KINDS[number % 4]
            yield "%s; pack %s -side left -padx 2" % (kind % ((path, number) if kind.count("%") == 2 else path), path)


def script_of(count, rounds, changes):
    """Makes and destroys a panel in each round, and tells how many windows there were."""
    change = "for {set j 0} {$j < %d} {incr j} {.r1.w4 configure -text [string repeat x [expr {$j %% 7 + 1}]]; update idletasks}" % changes
    return "\n".join([
        "proc make {} {", *made(count), "}", "set windows 0", "for {set i 0} {$i < %d} {incr i} {" % rounds, "make", "update idletasks", change if changes else "#",
        "foreach row [winfo children .] {incr windows [llength [winfo children $row]]}", "incr windows [llength [winfo children .]]", "destroy {*}[winfo children .]", "}", "puts $windows"])


def runs(program, wish, applications, script):
    """The least times of a script in the host and in wish, nothing in place of the latter where there is none."""
    host, sections = least(lambda: timed([program], session(applications, SIZE, script)))
    own = printed(sections, applications)
    if not wish.server:
        return (host, None), own, own
    time, told = least(lambda: wish.timed(applications, SIZE, script))
    return (host, time), own, told


def measured(program, wish, applications, count, rounds):
    """The times of a window and of a change, in the host and in wish, and whether all windows were made."""
    wanted = lambda times: b"%d\n" % (times * (count - 1)) * applications
    idle, first, second = (runs(program, wish, applications, script_of(count, *pair)) for pair in ((0, 0), (rounds, 0), (rounds, CHANGES)))
    as_wanted = all(told == wanted(times) for (_, *both), times in ((idle, 0), (first, rounds), (second, rounds)) for told in both)
    windows, changes = applications * rounds * (count - 1), applications * rounds * CHANGES
    part = lambda place, less, all_of_it, number: None if all_of_it[0][place] is None else max(all_of_it[0][place] - less[0][place], 0.001) / number * 1e6
    return [part(place, idle, first, windows) for place in (0, 1)], [part(place, first, second, changes) for place in (0, 1)], as_wanted


def main():
    if len(sys.argv) not in (2, 3):
        sys.exit(__doc__)
    program, wanted = os.path.abspath(sys.argv[1]), int(sys.argv[2]) if len(sys.argv) > 2 else 32768
    failed = False
    with Wish() as wish:
        for applications in (1, 16):
            for count in (8, 64, 512):
                rounds = max(1, wanted // (applications * count))
                window, change, as_wanted = measured(program, wish, applications, count, rounds)
                failed |= not as_wanted
                print("%2d applications of %3d windows: us a window %s; us a change %s%s" % (applications, count, beside(*window), beside(*change), "" if as_wanted else "  TELLS SOMETHING ELSE"), flush=True)
    sys.exit(1 if failed else 0)


if __name__ == "__main__":
    main()
