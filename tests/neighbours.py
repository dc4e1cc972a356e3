#!/usr/bin/env python3
"""neighbours.py [PAIRS [SEED]]: what an application writes stays the same, byte for byte, whatever its neighbours are and do.

The program is that which the gate left in crates/tkhost_main/out. The neighbours are bad ones: they never end, meet each limit, nest too deep, make
512 windows, destroy their windows, have no steps, or are random panels (panels.py). Three kinds of cases are told of:

- PAIRS times (500 if no number is given) a random application and two sessions for it, in which its name, script, size, budget, aliases and the
  events that come to it are the same, and all else is another: how many neighbours it has, their names, sizes, budgets and aliases, who comes
  first, and where in the window it lies.
- At least PAIRS times an application of a random session, and the session in which all others have other scripts; each application of a session in
  turn. Half of these sessions have rectangles that move and budgets that are refilled.
- The whole panels of examples/panels/, each beside fifteen bad neighbours, as many as there can be, until it has met each of them; its section has to be
  that which is stored, where it is alone."""
import concurrent.futures, os, re, subprocess, sys
from panels import Panels, block, session
from programs import EXAMPLES, HOST, built

PANELS = EXAMPLES / "panels"
WIDTH, HEIGHT, COLUMNS, PLACES = 260, 200, 4, 16
KNOWN, BESIDE = sorted(it.stem for it in PANELS.glob("*.session")), 15
BAD = [
    "while 1 {}", "while 1 {append s xxxxxxxxxxxxxxxx}", "proc p {} {after 0 p}; p", "proc p {} {after 1 p; after 1 p}; p", "proc p {} {after idle p}; p", "proc p {} {p}; p",
    "proc p {} {after 1 {p}; update}; p; while 1 {update}", "bind . <<V>> {event generate . <<V>>}; event generate . <<V>>", "bind . <<V>> {event generate . <<V>> -when tail}; event generate . <<V>>; update",
    "while {[incr n] < 600} {frame .w$n}", "set p {}; while {[incr n] < 600} {pack [frame $p.w -bd 1] -padx 1; append p .w}", "while {[incr n] < 600} {pack [label .w$n -text $n] -side left}; bind all <Configure> {puts %W}",
    "while {[incr n] < 5000} {set v$n $n}", "while {[incr n] < 2000} {proc p$n {} {}}", "while {[incr n] < 300} {after $n {puts $n}}", "while {[incr n] < 300} {after idle {while 1 {}}}",
    "while {[incr n] < 5000} {bind t$n a x}", "while {[incr n] < 5000} {event add <<V$n>> a}", "set v 0123456789abcdef; while 1 {set v $v$v}", "while {[incr n] < 2000} {event generate . <<V>> -when tail}; bind . <<V>> {puts $n}",
    "destroy .", "after 2 {destroy .}", "bind . <Destroy> {destroy .}; destroy .", "bind . <Map> {destroy .}", "frame .f; bind .f <Destroy> {frame .f; destroy .f}; destroy .f", "error e", "{", "puts [string repeat x 65536]",
    "bind all <Key> {while 1 {}}; bind all <Motion> {while 1 {}}", "bind all <Enter> {destroy .}; bind all <Key> {destroy .}", "focus .; bind . <FocusOut> {focus .}", "rename puts {}; rename after {}; rename frame {}; set x",
    "entry .e -textvariable v; pack .e; focus .e; bind .e <Key> {set v {}}", "listbox .x; while 1 {.x insert end a b c d}", "button .b -command {.b invoke}; .b invoke", "bind . <Configure> {. configure -bd [incr n]}; while 1 {update}",
]


class Neighbourhood:
    """Where the applications of a session lie, and who they are; the one that is told of is `told`."""

    def __init__(self, made):
        self.made, self.places = made, made.random.sample(range(PLACES), made.between(1, 9))

    def corner(self, place):
        return 300 + place % COLUMNS * WIDTH + self.made.between(0, 9), 300 + place // COLUMNS * HEIGHT + self.made.between(0, 9)

    def neighbour(self, name, place):
        made = self.made
        rectangle = (*self.corner(place), made.between(1, WIDTH - 10), made.between(1, HEIGHT - 10))
        script = made.pick(BAD) if made.chance(0.8) else made.script()
        return block(name, rectangle, made.pick([0, 1, 50, 3000, 15000]), made.aliases() if made.chance(0.5) else ["puts fail no"], script)

    def text(self, size, rest, lines, end):
        """The session in which the application has one of the places, and its lines are moved there."""
        names = ["told"] + [self.made.pick(["n%d", "other%d", "N_%d"]) % place for place in self.places[1:]]
        x, y = self.corner(self.places[0])
        blocks = [block("told", (x, y, *size), *rest)] + [self.neighbour(*pair) for pair in list(zip(names, self.places))[1:]]
        self.made.random.shuffle(blocks)
        moved = []
        for moment, line in lines:
            kind, *words = line.split(" ")
            if kind == "move":
                line = "move %d %d" % (int(words[0]) + x, int(words[1]) + y)
            elif line == "focus other":
                line = "focus " + self.made.pick(names[1:] + ["-"])
            moved.append((moment, line))
        return session(blocks, moved, end)


def pair(made):
    """Two sessions with one application in common."""
    size, rest = (made.between(60, WIDTH - 10), made.between(40, HEIGHT - 10)), (made.budget(), made.aliases(), made.script())
    spots = lambda: (made.between(0, size[0]), made.between(0, size[1])) if made.chance(0.7) else (made.between(-300, 700), made.between(-300, 500))
    lines, end = made.lines(spots, ["told", "told", "other"])
    return [Neighbourhood(made).text(size, rest, lines, end) for _ in range(2)]


def bad_or_not(made):
    """A script of a neighbour, and its budget."""
    return (made.pick(BAD), made.pick([0, 1, 50, 3000, 15000])) if made.chance(0.5) else (made.script(), made.budget())


def moved(made, names, lines):
    """Lines of which some are a rectangle's, which stays in its place of the grid."""
    for moment, line in lines:
        if made.chance(0.15):
            number = made.between(0, len(names) - 1)
            x, y = number % COLUMNS * WIDTH + made.between(0, 30), number // COLUMNS * HEIGHT + made.between(0, 30)
            line = "rect %s %d %d %d %d" % (names[number], x, y, made.between(1, WIDTH - 30), made.between(1, HEIGHT - 30))
        yield moment, line


def replaced(made):
    """For each application of a session its name, the session, and the one in which all others have other scripts; in either version."""
    count = made.pick([2, 3, 5, 9, 16])
    names, firsts, seconds = ["p%d" % number for number in range(count)], [bad_or_not(made) for _ in range(count)], [bad_or_not(made) for _ in range(count)]
    corners = [(number % COLUMNS * WIDTH, number // COLUMNS * HEIGHT) for number in range(count)]
    version, refill = made.pick([(1, lambda: ""), (2, lambda: made.pick(["", "/0", "/1", "/40"]))])
    heads = [((*corner, made.between(60, WIDTH), made.between(40, HEIGHT)), "%d%s" % (first[1], refill()), made.aliases()) for corner, first in zip(corners, firsts)]
    lines, end = made.lines(lambda: (made.between(0, COLUMNS * WIDTH), made.between(0, COLUMNS * HEIGHT)), names)
    lines = list(moved(made, names, lines)) if version == 2 else lines
    text = lambda scripts: session([block(name, *head, script) for name, head, (script, _) in zip(names, heads, scripts)], lines, end, version)
    return [(name, text(firsts), text([*seconds[:number], firsts[number], *seconds[number + 1:]])) for number, name in enumerate(names)]


def crowded(made, panel):
    """Sessions in which a stored panel has fifteen bad neighbours, one of them without a step, with the panel's name and what it has to write."""
    head, _, rest = (PANELS / (panel + ".session")).read_text().partition("\n")
    own, _, lines = rest.partition("\nevents\n")
    for start in range(0, len(BAD), BESIDE - 1):
        scripts = ["while 1 {}", *(BAD[(start + number) % len(BAD)] for number in range(BESIDE - 1))]
        rectangle = lambda number: (1000 + number % COLUMNS * WIDTH, 1000 + number // COLUMNS * HEIGHT, WIDTH, HEIGHT)
        blocks = [block("bad%d" % number, rectangle(number), 20000 if number else 0, made.aliases(), script) for number, script in enumerate(scripts)]
        blocks.insert(made.between(0, BESIDE), [own])
        text = "\n".join([head, *(line for one in blocks for line in one), "events", lines])
        yield own.split(" ")[1], text.encode(), (PANELS / (panel + ".expected")).read_bytes()


def section(name, text):
    """The section of an application in a session; a section that is given is its own."""
    if text.startswith(b"app "):
        return text
    ended = subprocess.run([built(HOST)], input=text, capture_output=True, timeout=120)
    found = re.search(rb"^app %s .*?^done\n" % name.encode(), ended.stdout, re.M | re.S)
    if ended.returncode or ended.stderr or not found:
        sys.exit("a session was refused: %d %s\n%s" % (ended.returncode, ended.stderr.decode(), text.decode()))
    return found[0]


def differ(case):
    """What is told of two sessions in which an application's sections differ, or nothing."""
    name, *texts = case
    first, second = (section(name, text) for text in texts)
    return "" if first == second else "%s\n%s\n%s\n%s" % (texts[0].decode(), first.decode(), texts[1].decode(), second.decode())


def cases(made, count):
    """All cases: the application's name, a session, and another one or the section itself."""
    every = [("told", *pair(made)) for _ in range(count)]
    while len(every) < 2 * count:
        every += replaced(made)
    return every + [case for panel in KNOWN for case in crowded(made, panel)]


def main():
    count = int(sys.argv[1]) if len(sys.argv) > 1 else 500
    every = cases(Panels(int(sys.argv[2]) if len(sys.argv) > 2 else 20261126), count)
    with concurrent.futures.ThreadPoolExecutor(len(os.sched_getaffinity(0))) as pool:
        faults = [fault for fault in pool.map(differ, every) if fault]
    print("".join("sections differ:\n%s\n" % fault for fault in faults[:3]), end="")
    print("%d passed, %d failed" % (len(every) - len(faults), len(faults)))
    return 1 if faults else 0


if __name__ == "__main__":
    sys.exit(main())
