#!/usr/bin/env python3
"""wishes.py [--try]: panels in real wish (8.6, under Xvfb) and here (docs/porting.md).

contrib/tcl/wishplay.tcl plays panels of the benches in examples/panels: wish writes what is expected of the host, and has each window as wide and at the
same place across; places down and heights are left out, since a line of its font has another height. contrib/tcl/record.tcl writes down what is done in
wish, which is then played here by the program that the gate left, or with --try by the sources without proof. A machine without xvfb-run and wish is told
so, with status 0."""
import pathlib, shutil, subprocess, sys, tempfile
from programs import BENCHES, CRATES, EXAMPLES, TOP, all_seen, built, see

TRYING = sys.argv[1:] == ["--try"]
FOLDER = EXAMPLES / "panels"
TCL = TOP / "contrib" / "tcl"
PLAYED = [("form", "form"), ("keypad", "keypad"), ("modes", "modes"), ("stations", "stations"), ("stopwatch", "watch"), ("thermostat", "thermostat")]


def wish(script, *words, cwd=None):
    ended = subprocess.run(["xvfb-run", "-a", "wish", script, *words], cwd=cwd, capture_output=True, text=True, timeout=120)
    return ended.returncode, ended.stdout, ended.stderr


def across(section):
    """The lines of a section, of a window without its place down and its height."""
    lines = []
    for line in section.splitlines():
        words = line.split(" ", 8)
        lines.append(" ".join(words[:4] + words[5:6] + words[7:]) if words[0] == "win" else line)
    return lines


def plays():
    for bench, panel in PLAYED:
        status, text, said = wish(TCL / "wishplay.tcl", str(FOLDER / f"{bench}.toml"), panel)
        wanted = (FOLDER / f"{bench}.shown").read_text()
        differ = [f"    here {one!r}\n    wish {other!r}" for one, other in zip(across(wanted), across(text)) if one != other]
        see((status, said) == (0, "") and across(text) == across(wanted), f"{panel} in wish: status {status} {said}\n" + "\n".join(differ or [text]))
    status, _, said = wish(TCL / "wishplay.tcl", str(FOLDER / "form.toml"), "frm")
    see(status == 2 and "no panel frm" in said, f"a panel that isn't there: {status} {said}")


DRAGGED = '''end = 100

[[panel]]
name = "a"
text = """
bind . <B1-Motion> {if {"%W" eq "."} {puts [list %x %y]}}
listbox .l -height 4 -width 10
.l insert end a b c d
bind .l <<ListboxSelect>> {puts [.l curselection]}
pack .l"""
at = [10, 20]
size = [90, 90]
steps = 900

[[do]]
time = 10
drag = { panel = "a", window = ".", x = 1, y = 80, to = ".", to-x = 5, to-y = 86, moves = 3 }

[[do]]
time = 50
drag = { panel = "a", window = ".l", y = 8, to = ".l", to-y = 56, moves = 3 }
'''
TOLD = ["out 10 2 82", "out 10 3 84", "out 10 5 86", "out 50 0", "out 50 1", "out 50 2", "out 50 3"]


def drags():
    """A drag comes by the same places in wish, and selects row after row of a listbox there and here."""
    with tempfile.TemporaryDirectory() as top:
        bench = pathlib.Path(top, "drag.toml")
        bench.write_text(DRAGGED)
        status, text, said = wish(TCL / "wishplay.tcl", str(bench), "a")
        see((status, said) == (0, "") and [line for line in text.splitlines() if line.startswith("out ")] == TOLD, f"a drag in wish: status {status} {said}\n{text}")
        if not TRYING:
            text = subprocess.run([built(BENCHES), "run", str(bench)], capture_output=True, text=True).stdout
            see([line for line in text.splitlines() if line.startswith("out ")] == TOLD, f"a drag here:\n{text}")


# What differs without a word (docs/porting.md): a script, what is done with it, and the transcripts in wish and here.
ROWS = "listbox .l -height 4 -width 10{mode}\n.l insert end a b c d\npack .l\n"
DIFFERENCES = [
    ("a double click in a listbox", ROWS.format(mode=" -selectmode multiple") + "bind .l <<ListboxSelect>> {puts [list chosen [.l curselection]]}", ['double-click = { panel = "a", window = ".l", y = 8 }'], ["chosen 0"], ["chosen 0", "chosen {}"]),
    ("a double click that is bound", ROWS.format(mode=" -selectmode multiple") + "bind Listbox <Double-1> {;}\nbind .l <<ListboxSelect>> {puts [list chosen [.l curselection]]}", ['double-click = { panel = "a", window = ".l", y = 8 }'], ["chosen 0"], ["chosen 0"]),
    ("cget beside a variable", "set t on\nlabel .b -textvariable t\nputs [list [.b cget -text] [llength [.b configure -text]]]", [], ["on 5"], ["{} 3"]),
    ("unset of a variable that is shown", "set t on\nlabel .b -textvariable t\npack .b\nafter 20 {unset t; puts [info exists t]}", [], ["1"], ["0"]),
    ("decimals in variables", "set a 9.5\nset b 10.5\nputs [expr {$a < $b}]", [], ["1"], ["0"]),
    ("names with colons", "puts [list [catch {proc a::b {} {}}] [catch {set n::x 1}]]", [], ["1 1"], ["0 0"]),
    ("a press in an entry", "entry .e -width 10\n.e insert end abcdefgh\npack .e\nbind .e <ButtonRelease-1> {puts [.e index insert]}", ['click = { panel = "a", window = ".e", x = 33 }'], ["4"], ["3"]),
    ("the pointer on a button", "button .b -text b\npack .b\nbind .b <Enter> {after 1 {puts [.b cget -state]}}", ['move = { panel = "a", window = ".b" }'], ["active"], ["normal"]),
    ("the active row of a chosen one", ROWS.format(mode="") + ".l activate 2\nbind .l <<ListboxSelect>> {puts [.l index active]}", ['click = { panel = "a", window = ".l", y = 24 }'], ["2"], ["1"]),
    ("Up in the first row", ROWS.format(mode="") + "bind .l <<ListboxSelect>> {puts chosen}", ['click = { panel = "a", window = ".l", y = 8 }', 'key = "Up"'], ["chosen", "chosen"], ["chosen"]),
    ("a letter with Control", 'bind . <Control-Key-a> {puts [string equal "%A" a]}', ['focus = "a"', 'key = "Control-a"'], ["0"], ["1"]),
]


def differing(top):
    """Each difference that porting.md tells is one: what wish writes, and what is written here."""
    for number, (what, script, deeds, there, here) in enumerate(DIFFERENCES):
        bench = top / f"d{number}.toml"
        (top / f"d{number}.tcl").write_text(script + "\n")
        bench.write_text(f'end = 200\n[[panel]]\nname = "a"\nscript = "d{number}.tcl"\nat = [0, 0]\nsize = [120, 100]\nsteps = 900\n' + "".join(f"[[do]]\ntime = {10 * place}\n{deed}\n" for place, deed in enumerate(deeds, 1)))
        status, text, said = wish(TCL / "wishplay.tcl", str(bench), "a")
        outs = [line.split(" ", 2)[2] for line in text.splitlines() if line.startswith("out ")]
        see((status, said, outs) == (0, "", there), f"{what} in wish: status {status} {said} {outs}")
        if not TRYING:
            text = subprocess.run([built(BENCHES), "run", str(bench)], capture_output=True, text=True).stdout
            outs = [line.split(" ", 2)[2] for line in text.splitlines() if line.startswith("out ")]
            see(outs == here, f"{what} here: {outs}")


def differences():
    with tempfile.TemporaryDirectory() as top:
        differing(pathlib.Path(top))


# What somebody does with the form: a press on Send, a click into the name's field, keys, and Send again.
DRIVER = """
set argv [list form {script} {record}]
source {recorder}
proc at {{window x y what args}} {{event generate $window $what -x $x -y $y {{*}}$args; update}}
proc click {{window}} {{
    set x [expr {{[winfo width $window] / 2}}]
    set y [expr {{[winfo height $window] / 2}}]
    at $window $x $y <Enter>
    at $window $x $y <ButtonPress> -button 1
    at $window $x $y <ButtonRelease> -button 1
    after 40
}}
proc strike {{key}} {{
    event generate [focus] <KeyPress> -keysym $key
    event generate [focus] <KeyRelease> -keysym $key
    update
    after 40
}}
update
click .send
set said $::says
focus -force .name.field
click .name.field
foreach key {{A d a Tab 1 2 x BackSpace}} {{strike $key}}
click .send
puts $said
puts $::says
exit
"""

BENCH = """end = 60000

[[panel]]
name = "form"
script = "form.tcl"
at = [0, 0]
size = [260, 120]
steps = 5000

{record}
[[see]]
panel = "form"
says = "sent Ada 12"

[[see]]
panel = "form"
window = ".says"
text = "sent"
"""


def checked(top):
    """What the check of the bench in a folder tells."""
    if TRYING:
        data = [word for name in ("form.tcl", "recorded.toml") for word in ("--data", f"{name}={top / name}")]
        ended = subprocess.run(["rt", "try", *data, "--", "check", "recorded.toml"], cwd=CRATES / BENCHES, capture_output=True, text=True)
        return ended.stdout
    return subprocess.run([built(BENCHES), "check", "recorded.toml"], cwd=top, capture_output=True, text=True).stdout


def records():
    with tempfile.TemporaryDirectory() as top:
        top = pathlib.Path(top)
        shutil.copy(FOLDER / "form.tcl", top)
        (top / "driver.tcl").write_text(DRIVER.format(script=top / "form.tcl", record=top / "record", recorder=TCL / "record.tcl"))
        status, text, said = wish(top / "driver.tcl", cwd=top)
        record = (top / "record").read_text()
        see((status, text, said) == (0, "sent Ada 12\na name is wanted\nsent\n", ""), f"the form in wish: {status} {text} {said}")
        see(record.count("[[do]]") == 11 and record.count("click =") == 3 and 'type = "A"' in record and 'key = "Tab"' in record and 'key = "BackSpace"' in record, f"what was recorded:\n{record}")
        (top / "recorded.toml").write_text(BENCH.format(record=record))
        verdict = checked(top)
        see(verdict.startswith("ok    recorded.toml: form\n"), f"the record played here:\n{verdict}")


def main():
    if sys.argv[1:] not in ([], ["--try"]):
        sys.exit(__doc__)
    if not shutil.which("xvfb-run") or not shutil.which("wish"):
        print("wishes: there is no xvfb-run or no wish here (packages xvfb and tk), so nothing was seen")
        return 0
    plays()
    drags()
    differences()
    records()
    return all_seen("wishes")


if __name__ == "__main__":
    sys.exit(main())
