#!/usr/bin/env python3
"""shared_tables.py [SECONDS [SEED]]: applications that share all tables end as each of them ends alone, by slices of any size.

The programs are those that the gate left in crates/NAME/out. For about SECONDS seconds (90 if no number is given) random sessions of 1 to 16
applications are made (panels.py), with windows, bindings, aliases and timers, whose timers fall due at the same moments, whose budgets run out at
various places, and to which the pointer, keys and the focus go in turn. What `tkhost_main` writes of each session has to be, section by section,
what it writes of the session of each application alone; and `test_host` then plays them in slices of 1, 2, 3, 7, 64 and 1,000,000 steps, none of
which may change a byte."""
import pathlib, subprocess, sys, tempfile, time
from panels import Panels, block, session
from programs import HOST, TABLES_OF_HOSTS, built

WIDTH, HEIGHT, COLUMNS = 220, 160, 4


def panels(made):
    """The applications of a session, each in its place of a grid."""
    for number in range(made.pick([1, 2, 3, 5, 9, 16])):
        corner = number % COLUMNS * WIDTH, number // COLUMNS * HEIGHT
        yield block("p%d" % number, (*corner, made.between(60, WIDTH), made.between(40, HEIGHT)), made.budget(), made.aliases(), made.script())


def alone(number, lines):
    """The lines of a session for one of its applications, where the others' names mean nobody."""
    return [(moment, "focus -" if line.startswith("focus") and line != "focus p%d" % number else line) for moment, line in lines]


def written(text):
    ended = subprocess.run([built(HOST)], input=text, capture_output=True, timeout=60)
    if ended.returncode or ended.stderr:
        sys.exit("a session was refused: %d %s\n%s" % (ended.returncode, ended.stderr.decode(), text.decode()))
    return ended.stdout


def main():
    seconds = float(sys.argv[1]) if len(sys.argv) > 1 else 90
    made = Panels(int(sys.argv[2]) if len(sys.argv) > 2 else 20261124)
    stop, names, panels_in_all, not_alone = time.monotonic() + seconds * 0.6, [], 0, []
    with tempfile.TemporaryDirectory() as folder:
        while time.monotonic() < stop:
            blocks = list(panels(made))
            lines, end = made.lines(lambda: (made.between(0, COLUMNS * WIDTH), made.between(0, COLUMNS * HEIGHT)), ["p%d" % number for number in range(len(blocks))])
            name, text = "panels-%d" % len(names), session(blocks, lines, end)
            together = written(text)
            if together != b"".join(written(session([one], alone(number, lines), end)) for number, one in enumerate(blocks)):
                not_alone.append(name)
            pathlib.Path(folder, name + ".session").write_bytes(text)
            pathlib.Path(folder, name + ".expected").write_bytes(together)
            names.append(name)
            panels_in_all += len(blocks)
        told = subprocess.run([built(TABLES_OF_HOSTS), "play", *names], cwd=folder, capture_output=True, timeout=120).stdout.decode().splitlines()
    as_expected = {line.partition(":")[0] for line in told if line.endswith(": as expected")}
    failed = {name for name in names if name in not_alone or name not in as_expected}
    print("%d applications: %d sessions differ from their applications alone, %d by slices" % (panels_in_all, len(not_alone), len(set(names) - as_expected)))
    print("%d passed, %d failed" % (len(names) - len(failed), len(failed)))
    return 1 if failed else 0


if __name__ == "__main__":
    sys.exit(main())
