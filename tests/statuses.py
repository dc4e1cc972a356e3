#!/usr/bin/env python3
"""statuses.py: sees that the program ends with the statuses and the lines on standard error that README.md tells, with the real streams, and with streams
that give and take few bytes a call, fail, or take nothing, which streaming.c makes of them. Refused memory is refused_memory.py's. The program is
that which the gate left in crates/tkhost_main/out."""
import os, pathlib, re, subprocess, sys, tempfile
from programs import EXAMPLES, HOST, TOP, built

PROGRAM = built(HOST)
LAMP, FAULTY = EXAMPLES / "lamp-panel.session", EXAMPLES / "fault-of-a-button.session"
MOST_BYTES = 16_777_216
READ_FAULT, WRITE_FAULT = (3, "tkhost: read fault\n"), (3, "tkhost: write fault\n")


def told(text):
    """What the README's table of statuses says: each status with its line."""
    table = text.partition("\n| Status | Line |")[2].partition("\n\n")[0]
    return {(int(status), line.strip("`") if line != "none" else "") for status, line in re.findall(r"^\| (\d) \| (.*?) \|", table, re.M)}


def ended(path, *args, output=subprocess.PIPE):
    """How a run ends whose standard input is this: its status, what it wrote on standard error, and on standard output where that isn't another."""
    session = os.open(path, os.O_RDONLY)
    try:
        run = subprocess.run([PROGRAM, *args], stdin=session, stdout=output, stderr=subprocess.PIPE)
    finally:
        os.close(session)
    return run.returncode, run.stderr.decode(), run.stdout


def streamed(library, session, piece, reads=None, writes=None):
    """How a run of a session ends whose streams give or take so many bytes a call, and do so in so many calls."""
    told = {"READ": f"{piece} {reads}"} if reads is not None else {"WRITE": f"{piece} {writes}"}
    run = subprocess.run([PROGRAM], input=session, capture_output=True, env={"LD_PRELOAD": library, **told})
    return run.returncode, run.stderr.decode(), run.stdout


def streams(library):
    """Runs of a session by streams of each kind: what they are about, how they ended, and how they have to end."""
    session, sections = LAMP.read_bytes(), LAMP.with_suffix(".expected").read_bytes()
    for piece in (1, 7, 8192):
        # (one call more tells that the input has ended)
        enough = -(-len(session) // piece) + 1
        for calls in sorted({*range(min(enough, 40)), *range(max(enough - 3, 0), enough + 2)}):
            wanted = (0, "", sections) if calls >= enough else (*READ_FAULT, b"")
            yield f"input in {calls} pieces of {piece}", streamed(library, session, piece, reads=calls), wanted
        enough = -(-len(sections) // piece)
        for calls in sorted({*range(min(enough, 40)), *range(max(enough - 3, 0), enough + 2)}):
            for end in ("fails", "stops"):
                wanted = (0, "", sections) if calls >= enough else (*WRITE_FAULT, sections[:calls * piece])
                yield f"output in {calls} pieces of {piece}, which then {end}", streamed(library, session, piece, writes=f"{calls} {end}"), wanted


def longest_session():
    """A session of as many bytes as the most, which writes nothing but its section: nearly all are configurations of aliases."""
    lines = ["tkhost 1"]
    for app in range(4):
        lines += [f"app a{app} {app * 10} 0 10 10 5", *(f"alias c{it} const {'x' * 65_536}" for it in range(64 if app < 3 else 62)), "script 0"]
    rest = MOST_BYTES - len("\n".join([*lines, "events", "0 end", ""]).encode())
    for number, alias in enumerate(("alias last const ", "alias more const ")):
        # (a line more has its end more; the first takes what it can)
        count = min(rest - len(alias) - 1, 65_536)
        if count > 0:
            lines.insert(-1, alias + "x" * count)
            rest -= len(alias) + 1 + count
    return "\n".join([*lines, "events", "0 end", ""]).encode()


def main():
    if sys.argv[1:]:
        sys.exit(__doc__)
    status, line = FAULTY.with_suffix(".fault").read_text().split("\n", 1)
    with tempfile.TemporaryDirectory() as folder, tempfile.NamedTemporaryFile() as long, open("/dev/full", "wb") as full:
        long.truncate(MOST_BYTES + 1)
        most, more = pathlib.Path(folder, "most"), pathlib.Path(folder, "more")
        most.write_bytes(longest_session())
        more.write_bytes(longest_session() + b"\n")
        library = str(pathlib.Path(folder, "streaming.so"))
        subprocess.run(["gcc", "-shared", "-fPIC", "-O2", "-o", library, TOP / "tests" / "streaming.c", "-ldl"], check=True)
        runs = {
            "a session": (ended(LAMP), (0, "", LAMP.with_suffix(".expected").read_bytes())),
            "a faulty session": (ended(FAULTY), (int(status), line, b"")),
            "an argument": (ended(LAMP, "--help"), (2, "usage: tkhost\n", b"")),
            "an input that can't be read": (ended(TOP), (*READ_FAULT, b"")),
            "an input that is too long": (ended(long.name), (*READ_FAULT, b"")),
            "an input of the most bytes": (ended(most), (0, "", "".join(f"app a{it} running 5\ntree\nwin . Tk 0 0 10 10 1\ntimers\ndone\n" for it in range(4)).encode())),
            "a session of a byte more": (ended(more), (*READ_FAULT, b"")),
            "an input that never ends": (ended("/dev/zero"), (*READ_FAULT, b"")),
            "an output that takes nothing": (ended(LAMP, output=full), (*WRITE_FAULT, None)),
            **{about: (got, wanted) for about, got, wanted in streams(library)},
        }
    said, failed = told((TOP / "README.md").read_text()), 0
    for name, (got, wanted) in runs.items():
        in_words = re.sub(r"fault \d+ at line \d+", "fault N at line L", wanted[1].strip())
        if got != wanted or (wanted[0], in_words) not in said:
            failed += 1
            print(f"{name}: ended with {got}, and not with {wanted}, or README.md doesn't say so: {sorted(said)}")
    print(f"statuses: {len(runs) - failed} passed, {failed} failed")
    return 1 if failed else 0


if __name__ == "__main__":
    sys.exit(main())
