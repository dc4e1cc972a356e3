#!/usr/bin/env python3
"""benches.py [--try]: sees what `panels` makes of benches (docs/panels.md): the program that the gate left in crates/panels_main/out, or with --try the
sources without proof, which leaves out what writes files.

Each bench of examples/panels passes, and is the session that it prints: the host writes of that what the bench shows. What changes in a panel is told with
its window; and of each of many mistakes, in a script or in a bench, what is told has the words that lead to it."""
import json, os, pathlib, pty, re, shutil, subprocess, sys, tempfile
import xml.etree.ElementTree as etree
from programs import BENCHES, CRATES, EXAMPLES, HOST, all_seen, built, see

TRYING = sys.argv[1:] == ["--try"]
FOLDER = EXAMPLES / "panels"
KINDS = (".toml", ".tcl", ".shown")


def benches():
    return sorted(file.name for file in FOLDER.glob("*.toml"))


class Runs:
    """Runs of the program in one folder: each has a copy of the benches for itself, NAME/, in which files are changed, and something to see."""

    def __init__(self, top):
        self.top, self.runs = pathlib.Path(top), []

    def copy(self):
        """A copy of the benches for the next run."""
        room = self.top / f"r{len(self.runs)}"
        room.mkdir()
        for file in FOLDER.iterdir():
            if file.suffix in KINDS:
                shutil.copy(file, room)
        return room

    def add(self, words, then):
        """A run with these words, and what sees its status and what it wrote."""
        self.runs.append((words, then))

    def run_all(self):
        ended = self.tried() if TRYING else [self.run(words) for words, _ in self.runs]
        for (_, then), (status, text) in zip(self.runs, ended):
            then(status, text)

    def run(self, words):
        ended = subprocess.run([built(BENCHES), *words], cwd=self.top, capture_output=True, text=True, timeout=120)
        return ended.returncode, ended.stdout + ended.stderr

    def tried(self):
        """The same by the sources, built once and without proof."""
        with tempfile.TemporaryDirectory() as cases:
            data = [word for file in sorted(self.top.rglob("*")) if file.is_file() for word in ("--data", f"{file.relative_to(self.top)}={file}")]
            for number, (words, _) in enumerate(self.runs):
                pathlib.Path(cases, f"c{number}").write_text("")
                pathlib.Path(cases, f"c{number}.args").write_text("".join(f"{word}\n" for word in words))
            ended = subprocess.run(["rt", "try", *data, "--cases", cases], cwd=CRATES / BENCHES, stdout=subprocess.PIPE, stderr=subprocess.STDOUT, text=True)
        found = [re.search(rf"^== c{number}\n(.*?)^case=c{number} .*?status=(\d+)", ended.stdout, re.M | re.S) for number in range(len(self.runs))]
        if not all(found):
            lost = "".join(f"no answer: {words}\n" for one, (words, _) in zip(found, self.runs) if not one)
            sys.exit(lost + ended.stdout[-1000:])
        return [(int(one[2]), one[1]) for one in found]


def check_all(runs):
    """All benches pass, and each is the session that it prints."""
    room = runs.copy()
    names = [f"{room.name}/{name}" for name in benches()]

    def passes(status, text):
        see(status == 0 and "FAIL" not in text, f"check of all benches: {status}\n{text}")
        see(text.count("ok    ") == text.count("\n") - 1 >= len(names), f"check of all benches tells fewer panels than there are:\n{text}")

    runs.add(["check", *names], passes)
    for name in names:
        found = {}

        def printed(status, text, name=name, found=found):
            found["session"] = text
            see(status == 0 and text.startswith("tkhost 2\n") and text.endswith(" end\n"), f"{name} prints no session: {status} {text}")

        def shown(status, text, name=name, found=found):
            see(status == 0 and text.endswith("done\n"), f"{name} isn't run: {status} {text}")
            if built(HOST).exists():
                ended = subprocess.run([built(HOST)], input=found["session"], capture_output=True, text=True)
                see((ended.returncode, ended.stdout) == (0, text), f"{name} isn't the session that it prints")

        runs.add(["session", name], printed)
        runs.add(["run", name], shown)


def mistake(runs, what, status, bench, file, old, new, *words, command=("check",)):
    """A change in a file, after which the check of a bench ends with this status and tells these words."""
    room = runs.copy()
    path = room / file
    text = path.read_text()
    see(text.count(old) >= 1, f"{file} has no {old!r}")
    path.write_text(text.replace(old, new, 1))

    def tells(ended, text):
        missing = [word for word in words if word not in text]
        see(ended == status and not missing, f"{what}: status {ended}, and these words are missing: {missing}\n{text}")

    runs.add([*command, f"{room.name}/{bench}"], tells)


def changes(runs):
    mistake(runs, "another text", 1, "modes.toml", "modes.tcl", "-text Switch", "-text Toggle", "FAIL", "modes", "window .switch", "wanted: win .switch Button 66 20 68 28 1 Switch", "got: win .switch Button 66 20 68 28 1 Toggle")
    mistake(runs, "another moment", 1, "keypad.toml", "keypad.tcl", "after 5000 unlock", "after 5001 unlock", "transcript", "unlocked at 5620", "unlocked at 5621")
    mistake(runs, "a timer more", 1, "modes.toml", "modes.tcl", "pack .mode .switch", "pack .mode .switch\nafter 5000 {}", "timers", "(no line)", "timer after#")
    mistake(runs, "a window less", 1, "modes.toml", "modes.tcl", "pack .mode .switch", "pack .mode", "isn't hit", "it isn't shown there", "win .switch")
    mistake(runs, "another place", 1, "moved.toml", "moved.toml", 'size = [160, 100]', 'size = [162, 100]', "window .more", "wanted: win .more Button 54 20 52 28 1 More", "got: win .more Button 55 20 52 28 1 More")


def mistakes(runs):
    in_script = [
        ("a brace missing", "} else {", "else {", "a script ended with an error"),
        ("a brace too near", "} else {", "}else {", "a script ended with an error: err", "extra characters after close-brace"),
        ("a quote missing", 'puts "wrong code $wrong"', 'puts "wrong code $wrong', "a script ended with an error: err", 'missing "'),
        ("a bracket missing", "[string length $code]]", "[string length $code]", "a script ended with an error: err", "missing close-bracket"),
        ("an operand missing", "$wrong == 3", "$wrong ==", "a script ended with an error: err", "syntax error in expression"),
        ("an option misspelt", "-relief sunken", "-releif sunken", 'unknown option "-releif"'),
        ("a loop without an end", "incr wrong\n", "while 1 {}\n", "it ran out of steps, of which it had 20000: "),
        ("a window misspelt", "button .row4.ok", "button .row4.okay", "there is no window .row4.ok", "win .row4.clear"),
    ]
    for what, old, new, *words in in_script:
        mistake(runs, what, 1, "keypad.toml", "keypad.tcl", old, new, "keypad.toml: keypad", "FAIL", *words)
    mistake(runs, "a budget too small", 1, "keypad.toml", "keypad.toml", "steps = 20000", "steps = \"60/1\"", "it ran out of steps, of which it had 60, and 1 more with each event: ")
    mistake(runs, "a click beside a button", 1, "keypad.toml", "keypad.toml", 'window = ".row1.k1" }', 'window = ".row1.k1", x = 200 }', "line 13, at 100 ms", "isn't hit")
    mistake(runs, "a click under another window", 1, "keypad.toml", "keypad.toml", 'window = ".row1.k1" }', 'window = ".row1" }', "window .row1 isn't hit: there .row1.k2 lies above it")
    mistake(runs, "no keyboard", 1, "modes.toml", "modes.toml", 'window = ".switch" }', 'window = ".switch", focus = false }', "no panel has the keyboard")
    mistake(runs, "an unseen text", 1, "form.toml", "form.toml", 'text = "a name is wanted"', 'text = "a name"', 'window .says: wanted text "a name"', "win .says Label")
    mistake(runs, "an unseen line", 1, "form.toml", "form.toml", 'says = "sent Ada 12"', 'says = "sent Ada 13"', 'no line "sent Ada 13"', "out 650 sent Ada 12")
    mistake(runs, "an unseen timer", 1, "keypad.toml", "keypad.toml", "timers = 1", "timers = 2", "wanted 2", "timer after#")
    mistake(runs, "an unseen state", 1, "runaway.toml", "runaway.toml", 'state = "exhausted"', 'state = "closed"', "state: wanted closed, got", "app runaway exhausted 0")
    mistake(runs, "too few steps", 1, "runaway.toml", "runaway.toml", "least-steps = 1900", "least-steps = 2000", "steps left: wanted 2000 or more")
    mistake(runs, "an error that isn't there", 1, "form.toml", "form.toml", "errors = false", "errors = true", "there is none")
    in_bench = [
        ("a time that goes back", "time = 600", "time = 60", "keypad.toml:", "time 60 is before 400"),
        ("a time behind the end", "time = 700", "time = 7001", "keypad.toml:", "time 7001 is behind the end"),
        ("a key that there isn't", 'type = "9\\n"', 'key = "Enter"', "there is no key Enter: did you mean Return?"),
        ("a key that isn't typed", 'type = "9\\n"', 'type = "ö"', "a character that no key types"),
        ("a bench's key misspelt", "steps = 20000", "stepz = 20000", "keypad.toml:9: there is no key stepz here: did you mean steps?"),
        ("a key that is missing", "steps = 20000\n", "", "steps is missing: it wants steps up to 10000000"),
        ("a panel misspelt", 'panel = "keypad", window = ".row1.k1"', 'panel = "kepad", window = ".row1.k1"', "there is no panel kepad: did you mean keypad?"),
        ("a file misspelt", 'script = "keypad.tcl"', 'script = "kepad.tcl"', "keypad.toml:6: script kepad.tcl can't be read"),
        ("a value of another kind", "size = [240, 240]", "size = 240", "keypad.toml:8: size wants two numbers of pixels up to 32767"),
        ("a size of nothing", "size = [240, 240]", "size = [240, 0]", "keypad.toml:5: a value is none that a session has"),
        ("no TOML", "end = 7000", "end = ", "keypad.toml:2: this isn't TOML"),
        ("two gestures in one", 'type = "3"', 'type = "3"\nkey = "4"', "and one of click"),
        ("a line that is none", 'type = "3"', 'line = "press 9"', "line wants a line of a session without its moment"),
        ("a name that is none", 'name = "keypad"', 'name = "key-pad"', "there is no panel keypad"),
        ("nothing to see", 'window = ".says"\ntext = "ready"\ntimers = 0', "", "a [[see]] has a window with what it shows, or one of"),
        ("nothing to see of a window", 'text = "ready"\ntimers = 0', "", "keypad.toml:69: a window has one of there, text"),
        ("a part without a window", 'window = ".shown"\n', "", "text is of a window"),
    ]
    for what, old, new, *words in in_bench:
        mistake(runs, what, 2, "keypad.toml", "keypad.toml", old, new, *words)
    room = runs.copy()
    (room / "keypad.shown").unlink()
    runs.add(["check", f"{room.name}/keypad.toml"], lambda status, text: see(status == 1 and "there is no file keypad.shown" in text, f"an expected file that isn't there: {status} {text}"))
    mistake(runs, "rectangles that overlap", 2, "moved.toml", "moved.toml", "at = [100, 0]", "at = [99, 0]", "moved.toml:13: its rectangle shares a pixel")
    mistake(runs, "rectangles that come to overlap", 2, "moved.toml", "moved.toml", "at = [0, 200], size", "at = [90, 0], size", "moved.toml:", "the new rectangle shares a pixel with another panel")
    room = runs.copy()
    text = (room / "keypad.tcl").read_text()
    (room / "keypad.tcl").write_bytes(b"\xef\xbb\xbf" + text.replace("\n", "\r\n").encode())
    runs.add(["check", f"{room.name}/keypad.toml"], lambda status, text: see((status, text[:6]) == (0, "ok    "), f"a script with a byte order mark and CRLF: {status} {text}"))


def statuses(runs):
    room = runs.copy()
    for words in (["check"], ["chek", f"{room.name}/keypad.toml"], ["run", f"{room.name}/keypad.toml", f"{room.name}/form.toml"]):
        runs.add(words, lambda status, text, words=words: see(status == 2 and "usage: panels check" in text, f"{words}: {status} {text}"))
    runs.add(["check", "none.toml"], lambda status, text: see(status == 2 and "none.toml can't be read" in text, f"a bench that isn't there: {status} {text}"))


def formats(runs):
    """Each format tells the same panels and the same failures."""
    room = runs.copy()
    path = room / "modes.tcl"
    path.write_text(path.read_text().replace("-text Switch", "-text {A <B> & \"C\" #1}"))
    names = [f"{room.name}/{name}" for name in ("form.toml", "modes.toml", "moved.toml")]
    wanted = 'got: win .switch Button 34 20 132 28 1 A <B> & "C" #1'

    def taps(status, text):
        lines = text.split("\n")
        see(status == 1 and lines[:2] == ["TAP version 13", "1..4"], f"TAP's head: {status} {text}")
        see([line[:6] for line in lines if re.match("(not )?ok ", line)] == ["ok 1 -", "not ok", "ok 3 -", "ok 4 -"], f"TAP's tests: {text}")
        see(all(re.match("(not )?ok [0-9]+ - |# ", line) for line in lines[2:-1]) and any(line.endswith(wanted) for line in lines), f"TAP's lines: {text}")

    def junits(status, text):
        root = etree.fromstring(text.encode())
        tests = list(root.iter("testcase"))
        see(status == 1 and root.attrib == {"tests": "4", "failures": "1", "errors": "0"} and len(tests) == 4, f"JUnit's suites: {status} {text}")
        failures = [failure for test in tests for failure in test]
        see({(test.get("classname"), test.get("name")) for test in tests if len(test)} == {(names[1], "modes")} and any(wanted in failure.text for failure in failures), f"JUnit's failures: {text}")

    def jsons(status, text):
        told = json.loads(text)
        see(status == 1 and (told["panels"], told["failed"]) == (4, 1), f"JSON's counts: {status} {text}")
        see([(case["bench"], case["panel"], case["ok"]) for case in told["cases"]] == [(names[0], "form", True), (names[1], "modes", False), (names[2], "left", True), (names[2], "right", True)], f"JSON's cases: {text}")
        see(any(wanted in problem for problem in told["cases"][1]["problems"]), f"JSON's problems: {text}")

    for word, then in (("tap", taps), ("junit", junits), ("json", jsons)):
        runs.add(["check", "--format", word, *names], then)
    runs.add(["check", "--format", "jsn", *names], lambda status, text: see(status == 2 and "there is no format jsn: did you mean json?" in text, f"a format that there isn't: {status} {text}"))
    runs.add(["check", "--fromat", "json", *names], lambda status, text: see(status == 2 and "there is no option --fromat: did you mean --format?" in text, f"an option that there isn't: {status} {text}"))
    runs.add(["run", "--format", "json", names[0]], lambda status, text: see(status == 2 and "usage: panels check" in text, f"a format where there is no verdict: {status} {text}"))


def shards(runs):
    """The shares of a check are all of it, and no bench is in two."""
    room = runs.copy()
    names = [f"{room.name}/{name}" for name in benches()]
    played = []

    def plays(status, text):
        see(status == 0, f"a share of the benches: {status} {text}")
        played.extend(re.findall(r"^ok    (\S+): ", text, re.M))
        if len(set(played)) == len(names):
            see(played.count(names[0]) == 1 and sorted(set(played)) == sorted(names), f"the shares of a check are {played}")

    for number in (1, 2, 3):
        runs.add(["check", "--shard", f"{number}/3", *names], plays)
    runs.add(["check", "--shard", "2/2", names[0]], lambda status, text: see((status, text) == (0, "0 panels, 0 of them failed\n"), f"a share with no bench: {status} {text}"))
    for word in ("0/3", "4/3", "3", "a/b", "1/0"):
        runs.add(["check", "--shard", word, *names], lambda status, text, word=word: see(status == 2 and "--shard wants" in text, f"share {word}: {status} {text}"))


def isolated(runs):
    """Panels show the same alone and beside endless neighbours; the sections of both runs stand beside each other."""
    room = runs.copy()
    names = [f"{room.name}/{name}" for name in (("moved.toml", "runaway.toml", "form.toml") if TRYING else benches())]
    runs.add(["check", "--isolate", *names], lambda status, text: see(status == 0 and "FAIL" not in text, f"panels beside others: {status} {text}"))
    mistake(runs, "a text that changed, alone too", 1, "modes.toml", "modes.tcl", "-text Switch", "-text Toggle", "1 panels, 1 of them failed", command=("check", "--isolate"))


def traced(runs):
    """A trace tells the lines of gestures and what comes of them, each with its moment."""
    room = runs.copy()

    def tells(status, text):
        lines = text.splitlines()
        wanted = ["100 focus form", "100 press 1: it came to .send of form", "100 form: win .says Label 64 40 132 20 1 a name is wanted", "250 keydown A: it came to .name.field of form, which has the keyboard", "250 form: binding <Key> of Entry ran", "250 form: win .name.field Entry 68 0 132 20 1 Ada", "650 form: out 650 sent Ada 12"]
        places = [lines.index(line) if line in lines else -1 for line in wanted]
        see(status == 0 and -1 not in places and places == sorted(places), f"the trace of the form: {status} {places}\n{text}")
        see("400 form: binding <Return> of .age.field ran" in lines, f"the trace of the form has no binding:\n{text}")
        see(all(re.match("[0-9]+ ", line) for line in lines) and [int(line.split()[0]) for line in lines] == sorted(int(line.split()[0]) for line in lines), f"the moments of a trace: {text}")

    runs.add(["run", "--trace", f"{room.name}/form.toml"], tells)
    (room / "still.toml").write_text('end = 100\n[[panel]]\nname = "still"\ntext = "label .l -text a -width 4; pack .l"\nat = [0, 0]\nsize = [90, 60]\nsteps = 90\n[[do]]\ntime = 10\nclick = { panel = "still", window = ".l" }\n[[do]]\nafter = 5\ntype = "a"\n[[do]]\nafter = 5\nline = "move 200 200"\n[[do]]\nafter = 5\nline = "press 1"\n')

    def tells_who(status, text):
        wanted = ["10 press 1: no script ran, it came to .l of still", "10 release 1", "15 keydown a: no script ran, it came to . of still, which has the keyboard", "25 press 1: no script ran, it came to no panel"]
        see(status == 0 and all(line in text.splitlines() for line in wanted), f"presses and keys that ran no script: {status}\n{text}")

    runs.add(["run", "--trace", f"{room.name}/still.toml"], tells_who)
    runs.add(["session", "--trace", f"{room.name}/form.toml"], lambda status, text: see(status == 2 and "usage: panels check" in text, f"a trace of a session: {status} {text}"))


def dragged(runs):
    """A drag is a press, moves of which each goes its share of what is left of the way, and the release; scripts are told each move."""
    room = runs.copy()
    bench = 'end = 100\n[[panel]]\nname = "a"\ntext = "bind . <B1-Motion> {puts [list %x %y]}"\nat = [10, 20]\nsize = [90, 60]\nsteps = 900\n[[do]]\ntime = 10\ndrag = { panel = "a", window = ".", x = 4, y = 50, to = ".", to-x = 41, to-y = 20 }\n'
    files = {"whole.toml": bench, "few.toml": bench.replace("to-y = 20", "to-y = 20, moves = 3"), "one.toml": bench.replace("to-y = 20", "to-y = 20, moves = 1"), "none.toml": bench.replace("to-y = 20", "to-y = 20, moves = 0")}
    for name, text in files.items():
        (room / name).write_text(text)

    def moves(name, places):
        lines = [f"10 move {10 + x} {20 + y}" for x, y in [(4, 50), *places]]
        lines[1:1] = ["10 focus a", "10 press 1"]
        runs.add(["session", f"{room.name}/{name}"], lambda status, text: see(status == 0 and "\n".join([*lines, "10 release 1", "100 end", ""]) in text, f"the lines of {name}: {status}\n{text}"))
        runs.add(["run", f"{room.name}/{name}"], lambda status, text: see(re.findall("^out 10 (.*)", text, re.M) == [f"{x} {y}" for x, y in places], f"the moves that {name} tells:\n{text}"))

    moves("whole.toml", [(8, 47), (12, 44), (16, 40), (21, 36), (26, 32), (31, 28), (36, 24), (41, 20)])
    moves("few.toml", [(16, 40), (28, 30), (41, 20)])
    moves("one.toml", [(41, 20)])
    runs.add(["check", f"{room.name}/none.toml"], lambda status, text: see(status == 2 and "moves wants a whole number from 1 to 1000" in text, f"a drag of no moves: {status} {text}"))


# A panel with a window of each class, and what isn't in its section.
ASKED = {
    "panel.tcl": """set lamp on
set room(heat) 5
label .says -textvariable lamp -width 6
button .go -text Go -state disabled
entry .name -textvariable who -width 12
listbox .rows -height 3 -selectmode multiple
.rows insert end Bern Biel {La Chaux-de-Fonds}
pack .says .go .name .rows
focus .name
wm title . {Hall 7}
""",
    "panel.toml": """end = 500
[[panel]]
name = "hall"
script = "panel.tcl"
at = [0, 0]
size = [200, 200]
steps = 900
[[do]]
time = 10
focus = "hall"
[[do]]
time = 20
type = "Ada"
[[do]]
time = 30
key = "Left"
[[do]]
time = 40
click = { panel = "hall", window = ".rows", y = 8, focus = false }
[[do]]
time = 50
click = { panel = "hall", window = ".rows", y = 40, focus = false }
[[see]]
time = 25
panel = "hall"
window = ".name"
value = "Ada"
cursor = 3
[[see]]
time = 100
panel = "hall"
window = ".name"
text = "Ada"
cursor = 2
[[see]]
panel = "hall"
window = ".rows"
value = ["Bern", "Biel", "La Chaux-de-Fonds"]
selection = [0, 2]
active = 2
options = { -height = 3, -selectmode = "multiple" }
[[see]]
panel = "hall"
window = ".go"
options = { -state = "disabled", -text = "Go" }
[[see]]
panel = "hall"
focus = ".rows"
title = "Hall 7"
variables = { lamp = "on", "room(heat)" = 5, gone = false, who = "Ada" }
""",
}
# Mistakes in the bench, each with the status and what is told.
UNASKED = [
    ("cursor = 2", "cursor = 1", 1, "line 29, at 100 ms: the cursor of window .name: wanted 1, got 2"),
    ("selection = [0, 2]", "selection = [0]", 1, "the selected rows of window .rows: wanted [0], got [0, 2]"),
    ("active = 2", "active = 0", 1, "the active row of window .rows: wanted 0, got 2"),
    ("-height = 3", "-height = 4", 1, 'option -height of window .rows: wanted "4", got "3"'),
    ("-text = \"Go\"", "-txet = \"Go\"", 1, 'option -txet of window .go: wanted "Go", got none, there is no such thing. The windows:', "win .go Button"),
    ('window = ".go"', 'window = ".gone"', 1, "option -state of window .gone: wanted", "win .rows Listbox"),
    ('value = "Ada"', 'value = "Eve"', 1, 'at 25 ms: the value of window .name: wanted "Eve", got "Ada"'),
    ('value = ["Bern", "Biel", "La Chaux-de-Fonds"]', 'value = ["Bern", "Biel"]', 1, 'the value of window .rows: wanted "Bern Biel", got "Bern Biel {La Chaux-de-Fonds}"'),
    ('focus = ".rows"', 'focus = ".name"', 1, 'the focus window: wanted ".name", got ".rows"'),
    ('title = "Hall 7"', 'title = "Hall 8"', 1, 'the title: wanted "Hall 8", got "Hall 7"'),
    ("gone = false", "lamp2 = \"on\"", 1, 'variable lamp2: wanted "on", got none, there is no such thing'),
    ("gone = false", "room = false", 0, "ok    "),
    ('"room(heat)" = 5', '"room(heat)" = 6', 1, 'variable room(heat): wanted "6", got "5"'),
    ("cursor = 2", "cursor = \"2\"", 2, "panel.toml:34: cursor wants a whole number from 0 to"),
    ("selection = [0, 2]", "selection = 0", 2, "selection wants rows of a listbox from 0 on, as [0, 2]"),
    ("gone = false", "gone = true", 2, "variables wants a table of variables"),
    ("options = { -state", "option = { -state", 2, "there is no key option here: did you mean options?"),
    ('window = ".rows"\n', "", 2, "value is of a window: window"),
    ('title = "Hall 7"', 'title = "Hall 7"\nwindow = ".go"', 2, "panel.toml:50: a window has one of"),
]


def asked(runs):
    """What no section tells is asked of the panel's record: options, values, rows, cursors, the focus window, the title, variables."""
    def room_with(**changes):
        room = runs.copy()
        for name, text in ASKED.items():
            old, new = changes.get(name.rpartition(".")[2], ("", ""))
            see(old in text, f"{name} has no {old!r}")
            (room / name).write_text(text.replace(old, new, 1) if old else text)
        return room

    room = room_with()
    runs.add(["check", f"{room.name}/panel.toml"], lambda status, text: see((status, text[:6]) == (0, "ok    "), f"what a panel's record tells: {status}\n{text}"))
    (room / "unseen.toml").write_text(ASKED["panel.toml"].partition("[[see]]")[0])
    shown = []
    for name in ("panel.toml", "unseen.toml"):
        runs.add(["run", f"{room.name}/{name}"], lambda status, text: see(shown.append(text) or text.startswith("app hall running ") and shown[0] == text, f"looking at a panel changes it: {shown}"))
    for old, new, wanted, *words in UNASKED:
        room = room_with(toml=(old, new))
        runs.add(["check", f"{room.name}/panel.toml"], lambda status, text, new=new, wanted=wanted, words=words: see(status == wanted and all(word in text for word in words), f"{new!r} of a panel's record: {status}, wanted {words}\n{text}"))


# A script with a line for each mistake: of each the line, what is told, and what to write instead.
LINTED = [
    ("package require Tk", 'invalid command name "package"', "Tk is there"),
    ("wm resizable . 0 0", 'wm resizable: bad option "resizable"', "the bench says the rectangle"),
    ("grid .a .b", 'invalid command name "grid"', "pack"),
    ("button .b -txet Go -width 4", 'unknown option "-txet"', "did you mean -text?"),
    ("button .c -text $label -relief sunkn", 'bad value "sunkn" for option "-relief"', "did you mean sunken?"),
    (".b config -state disabled", '.b config: bad option "config"', "configure"),
    (".b configure -stat disabled -txt a", 'unknown option "-txt"', "did you mean -text?"),
    (".b invok", 'bad option "invok"', "did you mean invoke?"),
    ("pack .b -sied left", 'unknown option "-sied"', "did you mean -side?"),
    ("pack .b -side lefft", 'bad value "lefft"', "did you mean left?"),
    ("pack .$name.k1 .$name.k2 -side rigth", 'bad value "rigth"', "did you mean right?"),
    ("event generate $window <Buton-1>", 'bad event type or keysym "Buton"', "did you mean Button?"),
    ("bind . <Buton-1> {puts pressed}", 'bad event type or keysym "Buton"', "did you mean Button?"),
    ("bind . <Key-Enter> {puts %K}", 'bad event type or keysym "Enter"', "Return"),
    ("bind .b <Button-1> {bell}", 'bell: invalid command name "bell"', "a label that tells it"),
    ("after 100 {puts stderr late}", 'puts stderr: bad option "stderr"', "one channel"),
    ("proc ask {} {if {[string is digit 4]} {return 1}}", 'string is: bad option "is"', "string match"),
    ("switch $mode {on {set a [lassing {1 2} x y]} off {}}", 'invalid command name "lassing"', ""),
    ("foreach name {a b} {lsearch -all $name x}", 'bad option "-all"', ""),
    ("set a 1 2", "set a: wrong # args", ""),
    ("tunr 3", 'invalid command name "tunr"', "did you mean turn?"),
]
# What isn't told: words that are there, or that nobody knows before the script runs.
UNTOLD = """proc turn {by} {return $by}
listbox .l -selectmode multiple
frame .f$by
.l selection clear 0 end
.$name config -state disabled
$window config
event add <<Go>> <Control-Key-g>
bind .l <<Go>> {+turn %x; %W selection clear 0 end}
after idle [list turn 3]
catch {turn 4} said
uplevel #0 {set a 1}
switch -exact -- $mode {on - off {turn 1}}
if {$by > 2 && ![winfo exists .f]} {turn 1} elseif {$by} then {turn 2} else {turn 3}
"""
# Scripts that can't be read, and what is told of each.
UNREADABLE = [
    ("open.tcl", "set a 1\nproc work {} {\n    if {1} {\n    set b 2\n}\n", "open.tcl:2: missing close-brace"),
    ("near.tcl", "set a 1\nproc work {} {\n    if {1} {\n    }else {\n    }\n}\n", "near.tcl:4: extra characters after close-brace"),
    # A line that goes on in the next one, as a command, as a comment and behind one that was open.
    ("on.tcl", 'set a {\n}\nset b \\\n# "c"x\nset d 1\n', "on.tcl:4: extra characters after close-quote"),
    ("comment.tcl", '# one \\\n"two"x\nset a {\n', "comment.tcl:3: missing close-brace"),
    ("backslash.tcl", 'set a \\\\\n# "b"x\nset c {\n', "backslash.tcl:3: missing close-brace"),
    # Each command can be read, and the whole is too long.
    ("long.tcl", "set a {\n}\n" + "".join(f"set name{number:04} {number:04}\n" for number in range(4000)), "long.tcl:1: limit reached: value: a script has at most 65,536 bytes"),
]


def linted(runs):
    """Of a script each mistake is told in its line, with what to write instead, and nothing else is."""
    room = runs.copy()
    (room / "wrong.tcl").write_text(UNTOLD + "".join(f"{line}\n" for line, *_ in LINTED))
    (room / "right.tcl").write_text(UNTOLD)
    first = UNTOLD.count("\n") + 1

    def tells(status, text):
        lines = text.splitlines()
        see(status == 1 and len(lines) == len(LINTED), f"lint tells {len(lines)} mistakes of {len(LINTED)}, status {status}:\n{text}")
        for number, (line, *words) in enumerate(LINTED, first):
            own = [one for one in lines if one.startswith(f"{room.name}/wrong.tcl:{number}: ")]
            see(len(own) == 1 and all(word in own[0] for word in words), f"lint of {line!r}: {own}")

    runs.add(["lint", f"{room.name}/wrong.tcl"], tells)
    runs.add(["lint", f"{room.name}/right.tcl"], lambda status, text: see((status, text) == (0, ""), f"lint of a script with no mistake: {status}\n{text}"))
    runs.add(["lint", *(f"{room.name}/{name}" for name in benches())], lambda status, text: see((status, text) == (0, ""), f"lint of the benches: {status}\n{text}"))
    for file, text, words in UNREADABLE:
        (room / file).write_text(text)
        runs.add(["lint", f"{room.name}/{file}"], lambda status, said, words=words: see(status == 1 and words in said and said.count("\n") == 1, f"lint of a script that can't be read: {status} {said}"))
    runs.add(["lint", "none.tcl"], lambda status, text: see(status == 2 and "none.tcl can't be read" in text, f"lint of no file: {status} {text}"))


# Mistakes in a script of ten lines, and where each is told.
PLACED = """label .shown -textvariable shown -width 8
button .more -text More -command {more 2}
proc more {by} {
    global count shown
    incr count $by
    set shown [
        string repeat * $count
    ]
    if {$count > 3} {tell}
}
proc tell {} {
    puts "it is $::count"
}
set count 0
pack .shown .more
bind . <Key> {more 1}
after 500 {more 1}
"""
PLACES = [
    ("incr count $by", "incr count $bx", ":5: incr count $bx", "in more, called in line 2", "run by the -command of .more, in line 2"),
    ("    puts", "    putz", ":12: putz", "in tell, called in line 9", "in more, called in line 17", "run by a timer or an idle script, made in line 17"),
    ("set count 0", "set count nil", ":5: incr count $by", "expected integer", "-command of .more"),
    ("string repeat * $count", "string repaet * $count", ":7: string repaet", "in more, called in line 2"),
    ("pack .shown .more", "pack .shown .mor", ":15: pack .shown .mor", "run by the panel's script"),
    ("{more 1}\nafter", "{more 1\nafter", ":16: missing close-brace"),
    ("after 500 {more 1}", "after 500 {mor 1}", ":17: mor 1", "run by a timer or an idle script, made in line 17"),
    ("incr count $by", "while 1 {incr count}", "it ran out of steps", "at 100 ms it stood in", ":5: ", "in more, called in line 2", "-command of .more"),
]


def placed(runs):
    """Of a script that fails the line is told, with the command, the procedures and what ran it."""
    for old, new, *words in PLACES:
        room = runs.copy()
        see(PLACED.count(old) == 1, f"the script has no {old!r}")
        (room / "more.tcl").write_text(PLACED.replace(old, new))
        (room / "more.toml").write_text('end = 600\n[[panel]]\nname = "more"\nscript = "more.tcl"\nat = [0, 0]\nsize = [90, 60]\nsteps = 900\n[[do]]\ntime = 100\nclick = { panel = "more", window = ".more" }\n[[do]]\nafter = 5\ntype = "a"\n')
        see_all = lambda status, text, new=new, words=words: see(status == 1 and all(word in text for word in words), f"where {new!r} failed: {status}, wanted {words}\n{text}")
        runs.add(["check", f"{room.name}/more.toml"], see_all)


SVG = "{http://www.w3.org/2000/svg}"


def boxes(picture):
    """The windows of a picture's panels: the panel's place, and of each window its path, what is shown of it and its whole place."""
    def box(element):
        return tuple(int(element.get(name)) for name in ("x", "y", "width", "height"))

    found = {}
    for panel in picture.findall(f"{SVG}svg"):
        if panel.get("class") != "pointer":
            windows = {one.find(f"{SVG}title").text: (box(one), box(one.find(f"{SVG}rect"))) for one in panel.findall(f"{SVG}svg")}
            found[panel.find(f"{SVG}title").text.partition(":")[0]] = (box(panel), windows)
    return found


def drawn(top):
    """Pictures have the places of the sections, at their moments, and a page has a picture for each moment at which something changes."""
    def run(*words):
        ended = subprocess.run([built(BENCHES), *words], cwd=FOLDER, capture_output=True, text=True, timeout=120)
        return ended.returncode, ended.stdout + ended.stderr

    file = str(pathlib.Path(top, "picture.svg"))
    see(run("draw", "moved.toml", "--at", "150", "--to", file) == (0, ""), "moved.toml isn't drawn")
    picture = etree.parse(file).getroot()
    found = boxes(picture)
    see({name: place for name, (place, _) in found.items()} == {"left": (0, 0, 100, 80), "right": (100, 0, 100, 80)}, f"the panels of moved.toml at 150: {found}")
    see(found["left"][1] == {".": ((0, 0, 100, 80),) * 2, ".count": ((24, 0, 52, 20),) * 2, ".more": ((24, 20, 52, 28),) * 2}, f"the windows of moved.toml at 150: {found}")
    run("draw", "moved.toml", "--at", "1000", "--to", file)
    found = boxes(etree.parse(file).getroot())
    see(found["left"] == ((0, 200, 160, 100), {".": ((0, 0, 160, 100),) * 2, ".count": ((54, 0, 52, 20),) * 2, ".more": ((54, 20, 52, 28),) * 2}), f"the windows of moved.toml at its end: {found}")
    for wrong, word in ((["--at", "99999", "--to", file], "behind the end"), (["--at", "x", "--to", file], "--at wants a moment"), (["--to", file], "usage"), (["--at", "5"], "usage"), (["--at", "5", "--to", f"{top}/none/x.svg"], "can't be written")):
        status, text = run("draw", "moved.toml", *wrong)
        see(status == 2 and word in text, f"draw {wrong}: {status} {text}")
    for name in benches():
        page = pathlib.Path(top, "page.html")
        status, text = run("show", name, "--to", str(page))
        html = page.read_text()
        moments = [int(moment) for moment in re.findall(r'<section class="frame" data-moment="([0-9]+)">', html)]
        see(status == 0 and text == f"{page}: {len(moments)} moments\n" and moments == sorted(set(moments)) and moments[0] == 0, f"the page of {name}: {status} {text} {moments}")
        pictures = [etree.fromstring(one) for one in re.findall(r'<div class="screen">\n(<svg .*?</svg>\n)</div>', html, re.S)]
        see(len(pictures) == len(moments) and "http" not in re.sub(r'xmlns="[^"]*"', "", html), f"the page of {name} has {len(pictures)} pictures, or wants the network")
        for picture in pictures:
            width, height = int(picture.get("width")), int(picture.get("height"))
            for title, ((x, y, across, down), windows) in boxes(picture).items():
                see(x + across <= width and y + down <= height, f"{name}: {title} is outside of its screen")
                see(all(left >= 0 and up >= 0 and left + wide <= across and up + high <= down for (left, up, wide, high), _ in windows.values()), f"{name}: a window of {title} is shown outside of it")
    pathlib.Path(top, "ticking.toml").write_text('end = 1000\n[[panel]]\nname = "ticking"\ntext = "proc tick {} {after 1 tick}; tick"\nat = [0, 0]\nsize = [9, 9]\nsteps = 9999\n')
    status, text = run("show", f"{top}/ticking.toml", "--to", f"{top}/ticking.html")
    see(status == 0 and text.endswith(": 500 moments\n") and "goes on after the last of these moments" in pathlib.Path(top, "ticking.html").read_text(), f"a page of too many moments: {status} {text}")
    see(run("run", "--trace", f"{top}/ticking.toml")[1].endswith("too many moments to tell\n"), "a trace of too many moments")
    wanted = re.findall(r"^win (\S+) ", (FOLDER / "thermostat.shown").read_text(), re.M)
    see(list(boxes(pictures[-1])["thermostat"][1]) == wanted, "the last picture of the thermostat has other windows than its section")


def read_terminal(ours):
    """All that was written to a terminal which nobody has open any more. What was written last may come by a later read."""
    pieces = []
    while True:
        try:
            piece = os.read(ours, 65536)
        except OSError:
            piece = b""
        if not piece:
            os.close(ours)
            return b"".join(pieces).decode()
        pieces.append(piece)


def around(top):
    """What the environment says, and what a terminal shows."""
    def run(names, **more):
        ended = subprocess.run([built(BENCHES), "check", *names], cwd=FOLDER, capture_output=True, text=True, timeout=120, env={**os.environ, **more})
        return ended.returncode, ended.stdout, ended.stderr

    names, played = benches(), []
    for index in range(3):
        file = pathlib.Path(top, f"status{index}")
        status, text, said = run(names, TEST_TOTAL_SHARDS="3", TEST_SHARD_INDEX=str(index), TEST_SHARD_STATUS_FILE=str(file))
        see((status, said) == (0, "") and file.exists(), f"share {index} of Bazel: {status} {text} {said}")
        played.append(set(re.findall(r"^ok    (\S+): ", text, re.M)))
    see(set.union(*played) == set(names) and sum(map(len, played)) == len(names), f"the shares of Bazel are {played}")
    status, text, _ = run(["--shard", "1/1", *names], TEST_TOTAL_SHARDS="3", TEST_SHARD_INDEX="1")
    see(status == 0 and set(re.findall(r"^ok    (\S+): ", text, re.M)) == set(names), "the command line's share isn't taken before Bazel's")
    for wrong in ({"TEST_SHARD_INDEX": "3"}, {"TEST_SHARD_INDEX": "x"}, {}):
        status, _, said = run(names, TEST_TOTAL_SHARDS="3", **wrong)
        see(status == 2 and "TEST_SHARD_INDEX is no number" in said, f"Bazel's share {wrong}: {status} {said}")
    ours, theirs = pty.openpty()
    ended = subprocess.run([built(BENCHES), "check", *names], cwd=FOLDER, stdout=subprocess.PIPE, stderr=theirs, text=True, timeout=120)
    os.close(theirs)
    shown = read_terminal(ours)
    see(ended.returncode == 0 and "\r" not in ended.stdout and f"{len(names)} of {len(names)}: {names[-1]}" in shown and shown.endswith("\r\x1b[K"), f"a terminal shows {shown!r}")


# Lines, and the answer to each: its last line is "ok" or begins with "refused:".
LIVED = [
    ("tkhost 3", "refused: fault 36, line 1 is: tkhost 3"),
    ("tkhost 2", "ok"),
    ("app a 0 0 100", "refused: fault 36, line 2 is: app a 0 0 100"),
    ("section a", "refused: fault 36"),
    ("app a 0 0 100 60 900", "ok"),
    ("app b 90 0 100 60 900", "refused: fault 36"),
    ("alias place const Hall 7", "ok"),
    ("alias place const Hall 8", "refused: fault 39"),
    ("script 2\nbutton .b -text Go -command {puts [place]}\npack .b", "ok"),
    ("app b 90 0 100 60 900", "refused: fault 34"),
    ("app b 100 0 100 60 900", "ok"),
    ("script 1\nafter 300 {puts late}", "ok"),
    ("events", "ok"),
    ("turns", "turn a 2\nturn b 1\nok"),
    ("window a .b", "win .b Button 32 0 36 28 1 Go\nok"),
    ("window a .c", "refused: the panel has no window of this path"),
    ("section c", "refused: no panel has this name"),
    ("100 move 50 30", "ok"),
    ("90 press 1", "refused: its moment is before that of a line above"),
    ("100 press 1", "ok"),
    ("100 release 1", "ok"),
    ("100 click .b", "refused: this is no line"),
    ("100 focus c", "refused: no panel has this name"),
    ("100 rect b 50 0 90 60", "refused: the new rectangle shares a pixel"),
    ("section b", "app b running 899\ntree\nwin . Tk 0 0 100 60 1\ntimers\ntimer after#0 300 puts late\ndone\nok"),
    ("advance 50", "refused: its moment is before"),
    ("advance 300", "ok"),
    ("section b", "app b running 897\nout 300 late\ntree\nwin . Tk 0 0 100 60 1\ntimers\ndone\nok"),
    ("200 end", "refused: its moment is before"),
]


def lived():
    """A session over a pipe: each line is answered before the next is written, and at its end it has written what the same session writes that is played whole."""
    def answer(program, lines):
        program.stdin.write(f"{lines}\n")
        program.stdin.flush()
        told = []
        while not told or told[-1] != "ok" and not told[-1].startswith("refused: "):
            line = program.stdout.readline()
            if not line:
                break
            told.append(line.rstrip("\n"))
        return "\n".join(told)

    with subprocess.Popen([built(BENCHES), "live"], stdin=subprocess.PIPE, stdout=subprocess.PIPE, text=True) as program:
        answers = []
        for lines, wanted in LIVED:
            told = answer(program, lines)
            answers.append(told)
            see(told == wanted or wanted.startswith("refused: ") and told.startswith(wanted) and "\n" not in told, f"live: {lines!r} is answered {told!r}, and not {wanted!r}")
        ended = answer(program, "400 end")
        answers.append(ended)
        see(program.wait(timeout=60) == 0, "live doesn't end with status 0")
    session = [lines for lines, wanted in LIVED if not wanted.startswith("refused") and lines.split()[0] not in ("turns", "window", "section", "advance")]
    if built(HOST).exists():
        whole = subprocess.run([built(HOST)], input="".join(f"{lines}\n" for lines in [*session, "400 end"]), capture_output=True, text=True)
        see(whole.returncode == 0 and whole.stdout + "ok" == ended, f"live ends with {ended!r}, and the session writes {whole.stdout!r}")
    with tempfile.TemporaryFile("w+") as file:
        file.write("".join(f"{lines}\n" for lines, _ in (*LIVED, ("400 end", ""))))
        file.seek(0)
        whole = subprocess.run([built(BENCHES), "live"], stdin=file, capture_output=True, text=True).stdout
    wanted = "".join(f"{told}\n" for told in answers)
    see(whole == wanted, f"live answers a file with {whole!r}, and its lines with {wanted!r}")
    ended = subprocess.run([built(BENCHES), "live"], input="tkhost 1\n", capture_output=True, text=True)
    see((ended.returncode, ended.stdout) == (0, "ok\n"), f"live whose input ends: {ended}")


def writing(top):
    """What `new` and `accept` write."""
    def run(*words):
        ended = subprocess.run([built(BENCHES), *words], cwd=top, capture_output=True, text=True, timeout=120)
        return ended.returncode, ended.stdout + ended.stderr

    see(run("new", "mine")[0] == 0 and run("check", "mine/bench.toml")[0] == 0, "a new bench doesn't pass")
    see(run("new", "mine")[0] == 2, "a bench is made over another")
    script = pathlib.Path(top, "mine", "lamp.tcl")
    script.write_text(script.read_text().replace("-text Switch", "-text Toggle"))
    see(run("check", "mine/bench.toml")[0] == 1, "a text changed, and the new bench passes")
    status, text = run("accept", "mine/bench.toml")
    see(status == 0 and "window .switch" in text and "Toggle" in text, f"accept doesn't tell what changed: {text}")
    see(run("check", "mine/bench.toml")[0] == 0, "what was accepted doesn't pass")


def main():
    if sys.argv[1:] not in ([], ["--try"]):
        sys.exit(__doc__)
    with tempfile.TemporaryDirectory() as top:
        runs = Runs(top)
        for part in (check_all, changes, mistakes, statuses, formats, shards, isolated, traced, dragged, asked, linted, placed):
            part(runs)
        runs.run_all()
        if not TRYING:
            writing(top)
            drawn(top)
            around(top)
            lived()
    return all_seen("benches")


if __name__ == "__main__":
    sys.exit(main())
