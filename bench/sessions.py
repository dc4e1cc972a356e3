#!/usr/bin/env python3
"""sessions.py PROGRAM [SIZE ..]: times how long PROGRAM, the built `tkhost_main`, takes to read sessions of these sizes in KiB, 1024, 4096 and 16384 if
none is given.

- `events`: short lines of the pointer and the keys;
- `rects`: focus and new rectangles for sixteen applications with names of 32 characters, so that each line is looked up among all;
- `texts`: sixteen applications with scripts of up to 64 KiB in short lines, and aliases with configurations of up to 64 KiB.

The end line of each goes back in time, so that the program reads the whole session, refuses its last line and plays nothing. `played` is `events` with
a good end and no application, so that it is played too. The times are those of the processor, in seconds, the least of three runs, less those of an
empty session; behind them stands how many times as long the largest took as the smallest, beside how many times as long it is. It ends with 1 where
a session is answered otherwise."""
import itertools, os, sys
from timing import ROUNDS, timed

MOST_BYTES = 65536
LEAST, MOST = 64, 16384


def pointer(moment):
    """A line of the pointer or the keys."""
    return (b"%d move %d %d", b"%d press 1", b"%d move %d %d", b"%d release 1", b"%d keydown x", b"%d keyup x")[moment % 6] % (
        (moment, moment % 997, moment % 251) if moment % 6 in (0, 2) else (moment,))


def name(slot):
    return b"%s%02d" % (b"n" * 30, slot)


def placed(moment):
    """A line that names one of sixteen applications."""
    slot = moment % 16
    if moment % 3 == 0:
        return b"%d focus %s" % (moment, name(slot))
    return b"%d rect %s %d %d %d %d" % (moment, name(slot), slot * 2000 + moment % 100, moment % 1000, 100 + moment % 7, 50)


def app(slot, lines=()):
    return [b"app %s %d 0 100 50 100" % (name(slot), slot * 2000), *lines, b"script 0"]


def filled(head, line, size, end):
    """The lines in front, then a line for each moment, up to the size with the end line."""
    room = size - sum(len(text) + 1 for text in head) - 32
    for moment in itertools.count(1):
        text = line(moment)
        room -= len(text) + 1
        if room < 0:
            return b"\n".join([*head, b"%d end" % (moment if end else 0), b""])
        head.append(text)


def texts(size):
    """Scripts of half the size, and of no more than they may have, and as many configurations as have room."""
    script = [b"set v %d" % (number % 10) for number in range(min(MOST_BYTES, size // 32) // 8)]
    room, blocks = size - 16 * (len(script) * 8 + 70) - 60, []
    for slot in range(16):
        own = room // (16 - slot)
        room -= own
        lengths = [MOST_BYTES] * (own // (MOST_BYTES + 20)) + [max(own % (MOST_BYTES + 20) - 20, 0)]
        aliases = [b"alias c%d const %s" % (number, b"x" * length) for number, length in enumerate(lengths)]
        blocks += [b"app %s %d 0 100 50 100" % (name(slot), slot * 2000), *aliases, b"script %d" % len(script), *script]
    return b"\n".join([b"tkhost 2", *blocks, b"events", b"1 move 1 1", b"0 end", b""])


KINDS = {
    "events": lambda size: filled([b"tkhost 1", *app(0), *app(1), b"events"], pointer, size, False),
    "rects": lambda size: filled([b"tkhost 2", *(line for slot in range(16) for line in app(slot)), b"events"], placed, size, False),
    "texts": texts,
    "played": lambda size: filled([b"tkhost 1", b"events"], pointer, size, True),
}


def answer_of(kind, session):
    """What the program has to answer: its exit status and what it writes."""
    return (0, b"") if kind == "played" else (1, b"tkhost: fault 35 at line %d\n" % session.count(b"\n"))


def least(program, session):
    """The least time of some runs, and what the first answered."""
    rounds = [timed([program], session) for _ in range(ROUNDS)]
    return min(time for time, *_ in rounds), rounds[0][2:]


def main():
    if len(sys.argv) < 2:
        sys.exit(__doc__)
    program, sizes = os.path.abspath(sys.argv[1]), [int(word) for word in sys.argv[2:]] or [1024, 4096, 16384]
    if not all(LEAST <= size <= MOST for size in sizes):
        sys.exit("a size is from %d to %d KiB" % (LEAST, MOST))
    idle, wrong = least(program, b"tkhost 1\nevents\n0 end\n")[0], False
    for kind, make in KINDS.items():
        times, lengths = [], []
        for size in sizes:
            session = make(size * 1024)
            time, answer = least(program, session)
            times.append(max(time - idle, 0.001))
            lengths.append(len(session))
            if answer != answer_of(kind, session):
                wrong = True
                print("%s of %d bytes: status %d, %r" % (kind, len(session), answer[0], answer[1][:200]))
        told = "  ".join("%5d KiB %8.3f" % pair for pair in zip(sizes, times))
        print("%-7s %s  times %5.1f, length %5.1f" % (kind, told, times[-1] / times[0], lengths[-1] / lengths[0]), flush=True)
    sys.exit(1 if wrong else 0)


if __name__ == "__main__":
    main()
