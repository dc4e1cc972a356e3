#!/usr/bin/env python3
"""refused_memory.py [--whole]: refuses requests for memory, one in each run, until a run meets no refusal: each of the first 250, and of those behind
them fewer and fewer, so that a session that asks ten thousand times is run some eleven hundred times. --whole refuses each in turn, of ten sessions with
all kinds of calls and of all tables, which takes a minute of four processors.

The programs are those that the gate left in crates/NAME/out. A session whose run is refused memory must end with status 4, its line on standard error, with one behind it that names
one of its applications or none, and nothing written, or else
write what is stored (the standard library's `collect` asks first for room that it can do without); one that isn't refused memory must
write what is stored. `panels` must end with status 4 so, too, where it plays a bench or takes lines, and of what it writes only a front may be
written then; a stream or a file that isn't read for want of memory it tells as such, with status 2. A program of tables asks a question that failed once more: what a call that was refused memory was put to is as it was, so the
answer and all behind it are those of the table. Where a question changes something and is then refused the memory for its answer (LATE), asking again does
it twice: there other answers may come, but only behind such a question, or that tell of want of memory. Where the program itself wanted the memory, it tells
so and ends."""
import concurrent.futures, os, re, signal, subprocess, sys, tempfile
from programs import BENCHES, CRATES, EXAMPLES, HOST, TABLES_OF_HOSTS, TABLES_OF_TCL, TABLES_OF_TK, TOP, built

# These sessions ask for memory more than ten thousand times, by the same calls as others.
LONG = {"conditions-by-expressions", "limit-of-procedures", "nested-too-deep"}
# The line of a run that was refused memory, behind which another tells which application asked, if one did.
LACK = b"tkhost: out of memory\n"
# Sessions with all kinds of calls: scripts, windows, bindings, timers, events of each kind, destruction, aliases.
ALL_KINDS = ("hello-and-bye", "two-buttons", "three-frames", "destroy-in-destroy", "timer-before-key", "nested-generate", "alias-per-app",
             "press-and-drag-off", "entry-typing", "listbox-click")
# What panels is run with, and what it reads.
PANELS = ((("run", "examples/panels/runaway.toml"), b""), (("live",), (EXAMPLES / "two-buttons.session").read_bytes()))
# What panels says where a stream or a file isn't read.
UNREAD = rb"panels: read or write fault\n|.* can't be read.*\n"
# Tables, and the program that reads each.
TABLES = {
    **dict.fromkeys(("commands/few", "expressions/few", "kept", "runs/few", "scopes", "scripts/few", "slices", "texts"), TABLES_OF_TCL),
    **dict.fromkeys(("bindings/few", "dispatch/few", "options", "sequences/few", "services/few", "timers", "virtuals", "widgets", "windows/layouts/few",
                     "windows/packings/few", "windows/trees/few"), TABLES_OF_TK),
    **dict.fromkeys(("calls", "inspection"), TABLES_OF_HOSTS),
}
# Those of them that may be refused memory for an answer once the call has done its work, with what such a call then says the second time, if it fails.
LATE = dict.fromkeys(("commands/few", "expressions/few", "timers", "widgets", "windows/layouts/few", "windows/packings/few", "windows/trees/few"), ())
LATE["dispatch/few"] = ("a window that was refused", "no window without children")
# How a program of tables counts the answers of one, where none is wrong.
COUNTED = re.compile(r"\S+: \d+ answers, 0 wrong(, 1 asked again)?\n")


def requests(whole):
    """The numbers of the requests that are refused."""
    number = 1
    while number < 1 << 20:
        yield number
        number += 1 if whole else 1 + number // 250


def run(words, number, library, stdin=b"", folder=None):
    """A run in which one request is refused: its exit status and what it wrote on both streams, and whether the refusal was met."""
    # (files and posix_spawn: tens of thousands of short runs, where pipes and a fork of this process would take most of the time)
    with tempfile.TemporaryFile() as given, tempfile.TemporaryFile() as out, tempfile.TemporaryFile() as err, tempfile.TemporaryFile() as met:
        given.write(stdin)
        given.flush()
        given.seek(0)
        os.chdir(folder or TOP)
        streams = [(os.POSIX_SPAWN_DUP2, file, at) for file, at in ((given.fileno(), 0), (out.fileno(), 1), (err.fileno(), 2), (met.fileno(), 9))]
        process = os.posix_spawn(words[0], words, {"LD_PRELOAD": library, "REFUSE": str(number)}, file_actions=streams)
        signal.signal(signal.SIGALRM, lambda *_: os.kill(process, signal.SIGKILL))
        signal.alarm(60)
        status = os.waitstatus_to_exitcode(os.waitpid(process, 0)[1])
        signal.alarm(0)
        out.seek(0)
        err.seek(0)
        return (status, out.read(), err.read()), met.seek(0, os.SEEK_END) > 0


def session_faults(program, library, whole, session):
    """What is wrong with the runs of a session, and how many met a refusal."""
    text, expected = session.read_bytes(), session.with_suffix(".expected")
    wanted = (0, expected.read_bytes(), b"")
    names = [line.split()[1] for line in expected.read_bytes().split(b"\n") if line.startswith(b"app ")]
    starved = {(4, b"", LACK + line): line for line in (b"", *(b"tkhost: memory was refused to %b\n" % name for name in names))}
    askers = set()
    if not expected.exists():
        return [], 0
    for number in requests(whole):
        got, met = run([program], number, library, text)
        if not met:
            if got != wanted:
                return [f"{session.stem}: without a refusal {got}"], number - 1
            # (of many applications some ask too seldom for each to be met)
            unheard = [line for line in starved.values() if line not in askers] if whole or len(names) < 2 else []
            return [f"{session.stem}: never told: {line}" for line in unheard], number - 1
        if got not in (wanted, *starved):
            return [f"{session.stem}: with request {number} refused {got}"], number
        askers.add(starved.get(got))
    return [f"{session.stem}: no end"], number


def panels_faults(program, library, whole, words, text):
    """What is wrong with the runs of panels, and how many met a refusal."""
    wanted, _ = run([program, *words], 0, library, text)
    names = re.findall(rb"^app (\w+) ", wanted[1], re.M)
    lines = [b"", *(b"panels: memory was refused to %b\n" % name for name in names)]
    starved, told = {b"panels: out of memory\n" + line: line for line in lines}, set()
    if wanted[0] or not names:
        return [f"{words}: {wanted}"], 0
    for number in requests(whole):
        got, met = run([program, *words], number, library, text)
        if not met:
            unheard = [line for line in lines if line not in told] if whole or len(told) < 2 else []
            return [f"{words}: never told: {line}" for line in unheard], number - 1
        # (what is read by streams fails as they do, whatever it is that they lack)
        if got != wanted and not (got[0] == 2 and re.fullmatch(UNREAD, got[2]) and wanted[1].startswith(got[1])):
            if got[0] != 4 or not wanted[1].startswith(got[1]) or got[2] not in starved:
                return [f"{words}: with request {number} refused {got}"], number
            told.add(starved[got[2]])
    return [f"{words}: no end"], number


def tells_of_memory(said):
    return any(word in said for word in ("out of memory", "memory was refused", "NoMemory", "AllocError", "AllocFailed", "allocation"))


def may_end(table, out, said):
    """Whether a program of tables that was refused memory may fail so."""
    if not out:
        return tells_of_memory(said) or any(words in said for words in LATE.get(table, ()))
    wrong = [line for line in out.splitlines() if " and not " in line]
    return table in LATE and (", 1 asked again\n" in out or bool(wrong) and all(tells_of_memory(line) for line in wrong))


def table_faults(program, library, whole, table):
    """What is wrong with the runs of a table, and how many met a refusal."""
    for number in requests(whole):
        (status, out, err), met = run([program, table], number, library, folder=CRATES / program.name / "data")
        said = (out + err).decode(errors="replace")
        if not met:
            return ([f"{table}: without a refusal {said}"] if status or not COUNTED.fullmatch(said) or "again" in said else []), number - 1
        if not COUNTED.fullmatch(said) if status == 0 else not may_end(table, out.decode(errors="replace"), said):
            return [f"{table}: with request {number} refused: {said}"], number
    return [f"{table}: no end"], number


def main():
    whole = sys.argv[1:] == ["--whole"]
    if sys.argv[1:] and not whole:
        sys.exit(__doc__)
    failed = 0
    with tempfile.TemporaryDirectory() as folder:
        library = f"{folder}/refusing.so"
        subprocess.run(["gcc", "-shared", "-fPIC", "-O1", "-o", library, TOP / "tests" / "refusing.c", "-ldl"], check=True)
        sessions = [s for s in sorted(EXAMPLES.rglob("*.session")) if s.with_suffix(".expected").exists() and s.stem not in LONG]
        runs = [(s.stem, session_faults, built(HOST), s) for s in sessions if not whole or s.stem in ALL_KINDS]
        runs += [(" ".join(("panels", *words)), panels_faults, built(BENCHES), words, text) for words, text in PANELS]
        runs += [(table, table_faults, built(name), table) for table, name in TABLES.items()]
        with concurrent.futures.ProcessPoolExecutor(len(os.sched_getaffinity(0))) as pool:
            jobs = [(name, pool.submit(faults, program, library, whole, *rest)) for name, faults, program, *rest in runs]
            jobs = [(name, job.result()) for name, job in jobs]
    for name, (faults, refusals) in jobs:
        failed += bool(faults)
        print(f"{name}: {refusals} refusals" + "".join(f"\n  {f}" for f in faults))
    print(f"refused memory: {len(jobs) - failed} passed, {failed} failed")
    return 1 if failed else 0


if __name__ == "__main__":
    sys.exit(main())
