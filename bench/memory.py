#!/usr/bin/env python3
"""memory.py PROGRAM [WORD ..]: what a command holds while it is in work, what an application keeps, and what applications of 1,000 and of 4,000 steps
come to, beside the bytes that docs/costs.md states ("What one step may add"); with words only the rows in whose names one of them stands.

A row is a session that makes some of a kind (words, lists, variables, lines ..), and the same session without them. What lies between their peaks of memory
is divided by their number: that has to be at most the bytes that the page states for one, and at least two thirds of them. A row makes far fewer than
there may be, so that it takes some tens of megabytes; the last ones make a sixteenth of what they stand for, or much less, and take up to 2 GB. A line of what is
printed is the row, how many it made, the bytes of one, those that are stated and their ratio, and what the most come to by what was measured.

A peak is that of the program alone, as Linux tells it (VmHWM): what it writes goes to a pipe that is full, and is only read once its memory was looked at. A
host has made all that it writes before its first byte. Exit status 1 where a ratio is above 1 or below two thirds."""
import dataclasses, os, pathlib, re, subprocess, sys, tempfile, time

TOP = pathlib.Path(__file__).resolve().parent.parent
LEAST = 2 / 3
# Values of (nearly) 65,536 bytes: two lists, a text, one of line feeds; and a list that its text keeps, as it was read a second time.
LIST, LINES = "set l [string repeat {a } 32765]", r"set l [string repeat a\n 32765]"
TEXT, FEEDS = "set x [string repeat x 65528]", r"set x [string repeat \n 65528]"
KEPT = "set s $l$i; llength $s; llength $s"
LETTERS = "abcdefghijklmnopqrstuvwxyzABCDEFGHIJKLMNOPQRSTUVWXYZ0123456789"
SEQUENCES = [*LETTERS, *(first + second for first in LETTERS for second in LETTERS)]


def times(count, script):
    return "set i 0; while {[incr i] <= %d} {%s}" % (count, script)


def brackets(count):
    """Sets a script of 571 `count` bytes, which takes most as it is read: brackets in one another, each with a letter before the next."""
    return "set b [string repeat [string repeat {[a} 190]a[string repeat {]} 190] %d]" % count


def commands(count):
    """Sets a script of 4 `count` bytes without brackets, which takes most of such as it is read: commands of two words."""
    return r'set b [string repeat "a b\n" %d]' % count


def failing(count):
    """An event whose script begins such a script, and that another one, until the sixteenth fails: no text is read twice."""
    there = " ".join("%d {}" % number for number in range(1, 1041) if number % 16)
    return brackets(count) + r'; set s "eval \$s\[incr n]\$v(\$n)\n$b;#"; bind . <<Fail>> {eval $s[incr n]$v($n)}; array set v {%s}' % there


def nested(items):
    """A loop over as many lists as a list has pairs of items, whose body is the loop again, until no more scripts may nest."""
    return "set l [string repeat {a } %d]; set s {foreach {*}$l a x $s}; catch {eval $s}" % (items - 2)


def keeping(part):
    """A script that keeps as much as it can with each step, of texts of a part of the longest: pairs, procedures, listboxes, lines."""
    size = 65_536 // part
    texts = r"set x [string repeat x %d]; set l [string repeat {a } %d]; set f [string repeat \n %d]" % (size - 8, size // 2, size - 8)
    pairs = "event add <<$x>> " + " ".join(SEQUENCES[:1000])
    procedures = "\n".join("proc p%d $l {}" % number for number in range(1024))
    listboxes = "set s {$p insert end {*}$l}\ncatch {while 1 {set p [listbox .x[incr i]]; eval $s}}"
    return "\n".join([texts, pairs, procedures, listboxes, *["puts $f"] * 4000])


@dataclasses.dataclass
class Row:
    """What a row makes: its name, as the page has it, what stands before, the script, and how many of the kind that makes; in how many applications of how many
    steps and of which size."""
    name: str
    before: str
    script: str
    made: float
    count: int = 1
    steps: int = 10_000_000
    size: tuple = (200, 100)

    def session(self, script):
        head = ["tkhost 1"]
        for number in range(self.count):
            head += ["app p%d %d 0 %d %d %d" % (number, number * self.size[0], *self.size, self.steps), "script %d" % (script.count("\n") + 1), script]
        return "\n".join([*head, "events", "9 end", ""]).encode()

    def measured(self, program):
        """The bytes of one."""
        without, whole = (peak(program, self.session(script)) for script in (self.before, self.before + "\n" + self.script))
        return (whole - without) / self.made


ROWS = [
    Row("words of lists", LIST, "set e list; append e [string repeat { {*}$l} 100]; catch {eval $e}", 100 * 32_765),
    Row("sequences of lists", LIST, "set e {event delete <<V>>}; append e [string repeat { {*}$l} 50]; eval $e", 50 * 32_765),
    Row("items of lists", LIST + "; listbox .x", "set e {.x insert end}; append e [string repeat { {*}$l} 50]; catch {eval $e}", 50 * 32_765),
    Row("paths of lists", LIST, "set e destroy; append e [string repeat { {*}$l} 50]; eval $e", 50 * 32_765),
    Row("lists of loops", LIST, "set e foreach; append e [string repeat { {*}$l} 100] { break}; eval $e", 50 * 32_765),
    Row("names of loops", "set n [string repeat {a } 64]", "set e foreach; append e [string repeat { $n 1} 10000] { break}; eval $e", 10000),
    Row("words put together", TEXT, "set e list; append e [string repeat { $x.} 1000]; catch {eval $e}", 1000),
    Row("texts of loops", LIST, "set e foreach; append e [string repeat { a $l.} 100] { break}; eval $e", 100),
    Row("scripts of an event", TEXT + "; set t {}; " + times(1000, 'bind t$i <Key-x> "#[string range $x 9 end]%K"; lappend t t$i') + "; bindtags . $t", "event generate . <Key-x>", 1000),
    Row("bytes of a script", brackets(114), "catch {eval $b}", 65_094),
    Row("bytes of commands", commands(16_380), "catch {eval $b}", 65_520),
    Row("items of other lists", TEXT, "catch {split $x {}}", 65_528),
    Row("pairs of one name", TEXT, "event add <<$x>> " + " ".join(SEQUENCES[:1000]), 1000),
    Row("lines", FEEDS, times(300, "puts $x."), 300),
    Row("events of layout", times(511, "pack [frame .w$i -width 5 -height 1]") + "; update", times(100, ".w1 configure -height [expr {1 + $i % 2}]; update idletasks"), 100 * 511, size=(200, 1000)),
    Row("scripts that failed", failing(114) + "; catch {eval $s[incr n]$v($n)}", times(64, "event generate . <<Fail>>"), 64 * 16),
    Row("variables", LIST + "; " + TEXT, times(200, KEPT + "; set $x$i $s; unset s"), 200),
    Row("bindings", LIST, times(100, "set t $l.$i; llength $t; llength $t; " + KEPT + "; bind $t a $s"), 100),
    Row("pairs", TEXT, times(200, "event add <<$x$i>> a"), 200),
    Row("procedures", LIST + "; " + TEXT, times(40, "proc $x$i $l $x."), 40),
    Row("timers", LINES, times(100, KEPT + "; after 99999 $s"), 100),
    Row("events that are generated", LIST + "; " + TEXT, times(100, KEPT + "; event generate . <<$x>> -when tail -data $s"), 100),
    Row("windows", LIST + "; " + FEEDS + "; set e {$w insert end {*}$l}", times(40, "set w [listbox .$x$i]; eval $e; bindtags $w $l"), 40),
    Row("bytes of scripts kept", commands(16_250), times(12, 'proc p$i {} $b; if 1 "list\n#$i\ncontinue\n$b"'), 5 * 65_000),
    Row("bytes of scripts kept for all", commands(997), times(256, 'after 0 "return $i\n$b"') + "; update", 256 * 3_988),
    Row("1,000 steps at once", "", nested(32_768), 1 / 10_900, steps=1000),
    Row("4,000 steps at once", "", nested(32_768), 1 / 10_900, steps=4000),
    Row("sixteen of 1,000 steps at once", "", nested(8192), 1 / 4 / 10_900, 16, 1000),
    Row("1,000 steps for good", "", keeping(16), 1 / 16, steps=1000),
    Row("4,000 steps for good", "", keeping(16), 1 / 16, steps=4000),
    Row("sixteen of 1,000 steps for good", "", keeping(64), 1 / 64, 16, 1000),
]


def full_pipe():
    """The ends of a pipe that takes no byte more, and how many it has."""
    reading, writing = os.pipe()
    os.set_blocking(writing, False)
    has = 0
    try:
        while True:
            has += os.write(writing, bytes(4096))
    except BlockingIOError:
        os.set_blocking(writing, True)
        return reading, writing, has


def waits(process):
    """Whether a program waits to write, as it reads from a file."""
    return pathlib.Path("/proc/%d/stat" % process.pid).read_text().rpartition(")")[2].split()[0] == "S"


def peak(program, text):
    """The most memory that a session takes, in bytes."""
    with tempfile.TemporaryFile() as given:
        given.write(text)
        given.seek(0)
        reading, writing, has = full_pipe()
        process = subprocess.Popen([program], stdin=given, stdout=writing, stderr=subprocess.STDOUT)
        os.close(writing)
        while process.poll() is None and not waits(process):
            time.sleep(0.01)
        status = pathlib.Path("/proc/%d/status" % process.pid)
        told = re.search(r"VmHWM:\s+(\d+) kB", status.read_text()) if process.returncode is None else None
        with open(reading, "rb") as written:
            said = written.read()[has:]
        # (the errors that a script is to make are told with an element that lacks)
        errors = [line for line in said.split(b"\n") if line.startswith(b"err ") and b"no such element" not in line]
        if process.wait() or not told or errors:
            sys.exit("%s ended with status %d: %s" % (program, process.returncode, (errors or [said])[0][:300].decode(errors="replace")))
        return int(told[1]) * 1024


def stated():
    """What docs/costs.md states of each row: the bytes of one, and how many there are at most, if there is a most."""
    part = (TOP / "docs" / "costs.md").read_text().partition("\n### What one step may add\n")[2].partition("\n## ")[0]
    cells = re.findall(r"^\| ([^|]+) \| [^|]+ \| ([\d,]+) \| ([\d,]*)[^|]* \|", part, re.M)
    return {name: (int(bytes_of.replace(",", "")), int(most.replace(",", "") or 0)) for name, bytes_of, most in cells}


def shown(count):
    """Some bytes, to be read."""
    for unit, size in ("TB", 1e12), ("GB", 1e9), ("MB", 1e6), ("KB", 1e3):
        if count >= size:
            return "%.3g %s" % (count / size, unit)
    return "%.3g bytes" % count


def main():
    if len(sys.argv) < 2:
        sys.exit(__doc__)
    program, words, pages, good = os.path.abspath(sys.argv[1]), sys.argv[2:], stated(), True
    for row in ROWS:
        if words and not any(word in row.name for word in words):
            continue
        if row.name not in pages:
            sys.exit("docs/costs.md says nothing of: " + row.name)
        (each, most), one = pages[row.name], row.measured(program)
        ratio = one / each
        good &= LEAST <= ratio <= 1
        of_all = ", the most %s" % shown(one * most) if most > 1 else ""
        print("%s: %.6g made, %s each, stated %s, ratio %.2f%s%s" % (row.name, row.made, shown(one), shown(each), ratio, of_all, "" if LEAST <= ratio <= 1 else "  NOT AS STATED"), flush=True)
    sys.exit(0 if good else 1)


if __name__ == "__main__":
    main()
