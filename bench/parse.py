#!/usr/bin/env python3
"""parse.py PROGRAM [COUNT]: times how long a script of 64 KiB takes to be read by PROGRAM, the built `test_tcl`, and, in the same run, to be compiled
by tclsh 8.6 as the body of a procedure, side by side.

Two scripts are read: one of short commands, one after the other, and the scripts of bench/scripts again and again, most of whose bytes stand in
braces. The times are those of the processor, in milliseconds a script, the least of three runs of COUNT readings (100), less those of a run of none;
the ratio is PROGRAM's time to that of tclsh. It ends with 1 where that is above 1."""
import os, pathlib, sys, tempfile
from timing import least, well

HERE = pathlib.Path(__file__).resolve().parent
SIZE = 65536 - len("return\n")  # tclsh has this line in front, so that the body is compiled and then does nothing

COMPILE = """set channel [open [lindex $argv 1]]
set body "return\\n[read $channel]"
for {set i 0} {$i < [lindex $argv 0]} {incr i} {
    proc compiled {} $body
    compiled
}
"""

COMMANDS = """# Row {0}.
set name{0} "row $i of [llength $items]"
.rows.row{0} configure -text "Press $count" -width 12 -command {{incr count; update idletasks}}
puts "The sum of $a and $b is [expr {{$a + $b}}]"
lappend all($i) [list $x $y "a b" {{c d}} {0}]
if {{$i > {0}}} {{puts "big: $i"}} else {{set small [string length $text]}}
pack .rows.row{0} .rows.more -side left -padx 4
set state(row,{0}) [lindex $list [expr {{$i + 1}}]]; incr total
"""


def commands():
    """Short commands, up to the size."""
    text = ""
    for number in range(10000):
        row = COMMANDS.format(number)
        if len(text) + len(row) > SIZE:
            return text
        text += row


def scripts():
    """The scripts of bench/scripts in turn, up to the size."""
    each = [path.read_text() + "\n" for path in sorted((HERE / "scripts").glob("*.tcl"))]
    text = ""
    for number in range(10000):
        script = each[number % len(each)]
        if len(text) + len(script) > SIZE:
            return text
        text += script


def milliseconds(words, count, path):
    """The time of one reading, where `words` read the script of the path as often as the words behind them say."""
    some, none = (least(lambda: well([*words, str(times), path]))[0] for times in (count, 0))
    return (some - none) / count * 1000


def main():
    if len(sys.argv) not in (2, 3):
        sys.exit(__doc__)
    program, count = os.path.abspath(sys.argv[1]), int(sys.argv[2]) if len(sys.argv) == 3 else 100
    slower = False
    with tempfile.TemporaryDirectory() as folder:
        compiling = pathlib.Path(folder, "compile.tcl")
        compiling.write_text(COMPILE)
        for name, text in (("commands", commands()), ("scripts", scripts())):
            path = pathlib.Path(folder, name)
            path.write_text(text)
            own = milliseconds([program, "repeat"], count, str(path))
            tclsh = milliseconds(["tclsh", str(compiling)], count, str(path))
            slower |= own > tclsh
            print(f"{name:10} {len(text):6} bytes  parse {own:7.3f} ms  tclsh {tclsh:7.3f} ms  ratio {own / tclsh:6.2f}")
    sys.exit(1 if slower else 0)


if __name__ == "__main__":
    main()
