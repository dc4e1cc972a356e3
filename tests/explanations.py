#!/usr/bin/env python3
"""explanations.py [--try]: sees what `panels explain` tells of sessions with mistakes that are easily made: of each the words that lead to it. The program is
that which the gate left in crates/panels_main/out; with --try the sources are run without proof, some minutes for each mistake."""
import pathlib, subprocess, sys, tempfile
from programs import BENCHES, CRATES, all_seen, built, see

TRYING = sys.argv[1:] == ["--try"]


def run(*words, cwd):
    """How a run of the program ends: its status, and what it writes on both streams."""
    if not TRYING:
        ended = subprocess.run([built(BENCHES), *words], cwd=cwd, capture_output=True, text=True, timeout=120)
        return ended.returncode, ended.stdout, ended.stderr
    data = [word for file in sorted(pathlib.Path(cwd).iterdir()) for word in ("--data", f"{file.name}={file.resolve()}")]
    ended = subprocess.run(["rt", "try", *data, "--", *words], cwd=CRATES / BENCHES, stdin=subprocess.DEVNULL, capture_output=True, text=True)
    return ended.returncode, ended.stdout, ended.stderr


SESSION = """tkhost 1
app a 0 0 100 50 9
script 2
set a 1
set b 2
events
5 focus a
6 keydown x
9 end
"""

EXPLAINED = [
    ("a count too short", "script 2", "script 1", "line 5 is: set b 2", "the count in line 3 is too short"),
    ("a count too long", "script 2", "script 9", "the text ends too soon", "counted in line 3"),
    ("CRLF", "events\n", "events\r\n", "line 6", "carriage return"),
    ("a byte order mark", "tkhost 1", "\ufefftkhost 1", "line 1", "byte order mark"),
    ("a blank line", "5 focus", "\n5 focus", "line 7", "a session has no blank lines"),
    ("a comment", "5 focus", "# keys\n5 focus", "line 7", "comment"),
    ("two blanks", "app a 0", "app a  0", "line 2", "two blanks"),
    ("a name that is none", "app a 0", "app a-b 0", "line 2", "NAME is a letter"),
    ("an event that there isn't", "6 keydown x", "6 click .b", "line 8", "There is no click"),
    ("a format that there isn't", "tkhost 1", "tkhost 3", "line 1", "tkhost 1 or tkhost 2"),
    ("a key that there isn't", "keydown x", "keydown *", "line 8", "the name of this key is asterisk"),
    ("a key of another name", "keydown x", "keydown Esc", "line 8", "did you mean Escape?"),
    ("a moment that goes back", "6 keydown", "4 keydown", "fault 35", "line 8", "before that of the line above"),
    ("an application that there isn't", "focus a", "focus b", "fault 37", "line 7", "no application has this name"),
    ("an end too soon", "9 end\n", "", "line 9 isn't there", "ends too soon"),
]


def explained():
    for what, old, new, *words in EXPLAINED:
        with tempfile.TemporaryDirectory() as folder:
            pathlib.Path(folder, "x.session").write_bytes(SESSION.replace(old, new, 1).encode())
            status, text, said = run("explain", "x.session", cwd=folder)
            missing = [word for word in words if word not in text]
            see(status == 1 and not missing, f"{what}: status {status}, and these words are missing: {missing}\n{text}{said}")


def others():
    with tempfile.TemporaryDirectory() as folder:
        pathlib.Path(folder, "x.session").write_text(SESSION)
        status, text, _ = run("explain", "x.session", cwd=folder)
        see((status, text) == (0, "this is a session: nothing is wrong with it\n"), f"a session is explained: {status} {text}")
        status, _, said = run("explain", "y.session", cwd=folder)
        see(status == 2 and "y.session can't be read" in said, f"a session that isn't there: {status} {said}")
        see(run("explian", "x.session", cwd=folder)[0] == 2 and run(cwd=folder)[0] == 2, "words that are none don't end with 2")


def main():
    if sys.argv[1:] not in ([], ["--try"]):
        sys.exit(__doc__)
    explained()
    others()
    return all_seen("explanations")


if __name__ == "__main__":
    sys.exit(main())
