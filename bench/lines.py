#!/usr/bin/env python3
"""lines.py PROGRAM [LINES]: times sessions by how many event lines they have, and shows their peak of memory.

First an application that counts motions and keys gets a quarter, half and all of LINES lines (1,000,000 if no number is given). Beside the peak of
memory of each stands that of the same session with a fault in its last line, which is read, but not played: what lies between them is what playing
takes, and must not grow with the lines. Then 16 applications get LINES lines in turn, 100 each, beside 16 sessions of one application with its lines alone. The
times are those of the processor in seconds, the least of three runs; of the second part what the applications take without lines is taken off."""
import os, pathlib, sys, tempfile
from timing import ROUNDS, corner, printed, timed

SIZE, VISIT, COUNT = (100, 50), 100, 16
SCRIPT = "set n 0; bind . <Motion> {incr n}; bind . <Key> {incr n}; after 10001 {puts $n}"
END = 10001
DEEDS = ["move %d %d", "move %d %d", "press 1", "move %d %d", "release 1", "move %d %d", "keydown a", "keyup a", "move %d %d", "move %d %d"]
PLAYED, FAULT = ["%d end" % END], ["%d never" % END]


def line(number, place, part):
    """A line of an application that lies at the place; the moments grow to less than 10,000, so that a line takes at most 16 bytes."""
    deed = DEEDS[number % len(DEEDS)]
    x, y = corner(place, SIZE)
    return "%d %s" % (int(part * 9999), deed % (x + number % 97, y + number % 47) if "%" in deed else deed)


def visits(wanted):
    """The numbers of lines, in runs that come to one application each."""
    return [range(start, min(start + VISIT, wanted)) for start in range(0, wanted, VISIT)]


def write(path, places, wanted, count, last):
    """A session in which applications at these places get their lines of those that come to `count` in turn; it is written line by line."""
    with open(path, "w") as to:
        to.write("tkhost 1\n")
        for place in places:
            to.write("app p%d %d %d %d %d 10000000\nscript 1\n%s\n" % (place, *corner(place, SIZE), *SIZE, SCRIPT))
        to.write("events\n")
        for visit, numbers in enumerate(visits(wanted)):
            place = visit % count
            if place in places:
                to.write("%d focus p%d\n" % (int(numbers[0] / wanted * 9999), place))
                to.writelines(line(number, place, number / wanted) + "\n" for number in numbers)
        to.write("\n".join([*last, ""]))


def counted(wanted, count):
    """What the applications tell: six motions and a key of ten lines, less the motion of the first line where the pointer crosses."""
    numbers = [0] * count
    for visit, own in enumerate(visits(wanted)):
        crosses = visit == 0 or count > 1
        numbers[visit % count] += sum(1 for number in own if DEEDS[number % len(DEEDS)].startswith(("move", "keydown"))) - crosses
    return b"".join(b"%d\n" % number for number in numbers)


def played(program, path, places):
    """The least time of a stored session, its peak of memory, and what was printed."""
    runs = [timed([program], path) for _ in range(ROUNDS)]
    return min(run[0] for run in runs), min(run[1] for run in runs), printed(runs[0][3], len(places))


def by_lines(program, path, wanted):
    """What a session of one application takes: its peak of memory, that of reading alone, and whether it told what it should."""
    write(path, [0], wanted, 1, FAULT)
    reading, peak, *_ = timed([program], path)
    write(path, [0], wanted, 1, PLAYED)
    time, whole, told = played(program, path, [0])
    as_wanted = told == counted(wanted, 1)
    print("%8d lines: %8.3f s, %6.2f us a line (read in %.3f s); peak %8d KiB, read but not played %8d KiB%s" % (
        wanted, time, time / wanted * 1e6, reading, whole // 1024, peak // 1024, "" if as_wanted else "  COUNTS SOMETHING ELSE"), flush=True)
    return whole, peak, as_wanted


def without_lines(program, path, places):
    """What the applications take by themselves."""
    write(path, places, 0, COUNT, PLAYED)
    return played(program, path, places)[0]


def side_by_side(program, path, wanted):
    """Whether 16 applications together told what they should; tells what they take so and one by one."""
    idle = without_lines(program, path, range(COUNT))
    write(path, range(COUNT), wanted, COUNT, PLAYED)
    together, peak, told = played(program, path, range(COUNT))
    together, alone = max(together - idle, 0.001), 0.0
    for place in range(COUNT):
        less = without_lines(program, path, [place])
        write(path, [place], wanted, COUNT, PLAYED)
        alone += max(played(program, path, [place])[0] - less, 0.001)
    as_wanted = told == counted(wanted, COUNT)
    print("%8d lines to 16 applications: together %8.3f s, one by one %8.3f s, ratio %5.2f; peak %8d KiB%s" % (
        wanted, together, alone, together / alone, peak // 1024, "" if as_wanted else "  COUNTS SOMETHING ELSE"), flush=True)
    return as_wanted


def main():
    if len(sys.argv) not in (2, 3):
        sys.exit(__doc__)
    program, wanted = os.path.abspath(sys.argv[1]), int(sys.argv[2]) if len(sys.argv) > 2 else 1000000
    with tempfile.TemporaryDirectory() as folder:
        path = pathlib.Path(folder, "lines.session")
        each = [by_lines(program, path, wanted // part) for part in (4, 2, 1)]
        more = [(each[2][place] - each[0][place]) / (wanted - wanted // 4) for place in (0, 1)]
        print("a line more takes %.1f bytes of memory, %.1f where it is read alone" % tuple(more), flush=True)
        good = side_by_side(program, path, wanted)
    sys.exit(0 if good and all(one[2] for one in each) else 1)


if __name__ == "__main__":
    main()
