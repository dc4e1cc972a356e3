#!/usr/bin/env python3
"""sessions.py [WORD ..]: each stored session, examples/**/NAME.session, writes what is stored beside it, byte for byte: NAME.expected, or NAME.fault, the
exit status and the line on standard error of a session that isn't accepted. With words only the sessions are played in whose names one of them stands.

The programs are those that the gate left in crates/NAME/out, each as two compilers built it: the host plays every session, and the program of tables of
hosts plays it in slices of 1, 2, 3, 7, 64 and 1,000,000 steps. A session that lacks its second file, or has both, and a file that belongs to no
session are told too, and count as failed; those of benches (benches.py) are left out."""
import concurrent.futures, os, subprocess, sys
from programs import BUILDS, EXAMPLES, HOST, TABLES_OF_HOSTS, built

ANSWERS = (".expected", ".fault")
OF_BENCHES = (".toml", ".tcl", ".shown")
SECONDS = 600


def stored():
    """The names of the stored sessions, and what is wrong with the files among them."""
    files = {it.relative_to(EXAMPLES) for it in EXAMPLES.rglob("*") if not it.is_dir() and it.name != "README.md" and it.suffix not in OF_BENCHES}
    names, faults = [], []
    for file in sorted(files):
        answers = [ending for ending in ANSWERS if file.with_suffix(ending) in files]
        if file.suffix in ANSWERS and file.with_suffix(".session") in files:
            continue
        if file.suffix != ".session":
            faults.append(f"{file}: belongs to no session")
        elif len(answers) != 1:
            faults.append(f"{file}: {'both' if answers else 'none'} of NAME.expected and NAME.fault are there, and one has to be")
        else:
            names.append(str(file.with_suffix("")))
    return names, faults


def wanted(name):
    """How the host has to end over a session: its status, and what it writes on both streams."""
    expected, fault = (EXAMPLES / (name + ending) for ending in ANSWERS)
    if expected.exists():
        return 0, expected.read_bytes(), b""
    status, line = fault.read_bytes().split(b"\n", 1)
    return int(status), b"", line


def played(build, name):
    """What is wrong with a session that the host plays."""
    with open(EXAMPLES / (name + ".session"), "rb") as session:
        ended = subprocess.run([built(HOST, build)], stdin=session, capture_output=True, timeout=SECONDS)
    got = ended.returncode, ended.stdout, ended.stderr
    if got != wanted(name):
        yield f"{name}: {built(HOST, build).name} ended with {got}"


def sliced(build, names):
    """What is wrong with sessions that are played in slices."""
    program = built(TABLES_OF_HOSTS, build)
    ended = subprocess.run([program, "play", *names], cwd=EXAMPLES, stdin=subprocess.DEVNULL, capture_output=True, text=True, errors="replace", timeout=SECONDS)
    told = {*ended.stdout.splitlines()}
    differing = [name for name in names if f"{name}: as expected" not in told]
    yield from (f"{name}: {program.name} tells that it differs in slices, or doesn't tell: {ended.stderr.strip()[-300:]}" for name in differing)
    if not differing and ended.returncode:
        yield f"{program.name} ended with {ended.returncode}: {ended.stderr.strip()[-300:]}"


def main():
    words = sys.argv[1:]
    if any(word.startswith("-") for word in words):
        sys.exit(__doc__)
    lacking = [str(it) for crate in (HOST, TABLES_OF_HOSTS) for it in (built(crate, build) for build in BUILDS) if not it.exists()]
    if lacking:
        sys.exit(f"{' '.join(lacking)}: not built; tests/run does it")
    names, faults = stored()
    names = [name for name in names if not words or any(word in name for word in words)]
    with concurrent.futures.ThreadPoolExecutor(len(os.sched_getaffinity(0))) as pool:
        # (a few at a time, so that the long ones don't come last all together)
        parts = [names[first::16] for first in range(min(16, len(names)))]
        jobs = [pool.submit(list, sliced(build, part)) for build in BUILDS for part in parts]
        jobs += [pool.submit(list, played(build, name)) for build in BUILDS for name in names]
        faults += [fault for job in jobs for fault in job.result()]
    print("".join(f"{fault}\n" for fault in faults), end="")
    failed = {fault.partition(":")[0] for fault in faults}
    print(f"sessions: {len({*names} - failed)} passed, {len(failed)} failed")
    return 1 if faults or not names else 0


if __name__ == "__main__":
    sys.exit(main())
