#!/usr/bin/env python3
"""readings.py [TABLE ..]: the program tells of texts what the tables tests/readings.table and tests/limits.table say: whether they are sessions, and
what is wrong with them.

A table has the form that the library `tables` tells. A question `session TEXT` gives a session; in its text `\\xHH` stands for a byte that is no
character, and for the backslash, and `\\*N*TEXT` for the text up to the next backslash N times. Those behind it ask the program: `plays` what it
writes of the session; `cut N` what it says of its first N bytes; and `byte HH N` of it with this byte in its place N. Those are answered `=` where the
program plays them, or `!NUMBER:LINE` where it refuses them. The program is that which the gate left in crates/tkhost_main/out."""
import concurrent.futures, os, pathlib, re, sys, tempfile
from asking import lines_of
from programs import HOST, TOP, built

PROGRAM = built(HOST)
REFUSED = re.compile(rb"tkhost: fault (\d+) at line (\d+)\n")


def bytes_of(text):
    """The bytes of a session as a question gives it."""
    first, *pieces = text.split("\\")
    made = first.encode()
    for piece in pieces:
        repeated = re.fullmatch(r"\*(\d+)\*(.*)", piece, re.S)
        made += (repeated[2] * int(repeated[1])).encode() if repeated else bytes([int(piece[1:3], 16)]) + piece[3:].encode()
    return made


def run(session):
    """How the program ends over these bytes: its status and what it wrote on both streams."""
    # (files and posix_spawn: thousands of short runs, where pipes and a fork of this process would take most of the time)
    with tempfile.TemporaryFile() as given, tempfile.TemporaryFile() as out, tempfile.TemporaryFile() as err:
        given.write(session)
        given.seek(0)
        streams = [(os.POSIX_SPAWN_DUP2, file.fileno(), at) for file, at in ((given, 0), (out, 1), (err, 2))]
        process = os.posix_spawn(PROGRAM, [PROGRAM], {}, file_actions=streams)
        status = os.waitstatus_to_exitcode(os.waitpid(process, 0)[1])
        out.seek(0)
        err.seek(0)
        return status, out.read(), err.read()


def answer(session, question):
    """What a question about a session is answered."""
    what, *words = question.split(" ")
    if what == "cut":
        session = session[:int(words[0])]
    elif what == "byte":
        place = int(words[1])
        session = session[:place] + bytes([int(words[0], 16)]) + session[place + 1:]
    status, out, err = run(session)
    refused = REFUSED.fullmatch(err)
    if status == 1 and refused and not out:
        return "!%s:%s" % (refused[1].decode(), refused[2].decode())
    if status or err:
        return "status %d, %r and %r" % (status, out[-200:], err[-200:])
    return "=" + (out.decode() if what == "plays" else "")


def told(block):
    """What the program answers otherwise, of a session and the questions behind it: the lines that tell it."""
    session, asked = block
    found = []
    for number, question, wanted in asked:
        got = answer(session, question)
        if got != wanted:
            found.append("%d: %s: %r and not %r" % (number, question, got, wanted))
    return found, len(asked)


def blocks(table):
    """The sessions of a table, each with some of the questions behind it: the number of the line, the question and its answer."""
    session, asked, last = b"", [], ""
    for number, line in lines_of(table):
        if line.startswith("?"):
            last = line[1:].removeprefix(" ")
            if last.startswith("session ") or len(asked) == 100:
                yield session, asked
                asked = []
            if last.startswith("session "):
                session = bytes_of(last.removeprefix("session "))
        elif line and not line.startswith("#") and not last.startswith("session "):
            asked.append((number, last, line))
    yield session, asked


def main():
    tables = [pathlib.Path(it) for it in sys.argv[1:]] or [TOP / "tests" / name for name in ("readings.table", "limits.table")]
    all_answers = all_wrong = 0
    with concurrent.futures.ProcessPoolExecutor(len(os.sched_getaffinity(0))) as pool:
        for table in tables:
            answered = list(pool.map(told, blocks(table)))
            wrong = [line for lines, _ in answered for line in lines]
            for line in wrong:
                print("%s:%s" % (table.name, line))
            all_answers += sum(count for _, count in answered)
            all_wrong += len(wrong) or not answered
    print("%d answers, %d wrong" % (all_answers, all_wrong))
    return 1 if all_wrong else 0


if __name__ == "__main__":
    sys.exit(main())
