#!/usr/bin/env python3
"""build.py [PROGRAM]: proves all crates of the host, or of another program, side by side on all processors, and builds it: what ./play --build and
./panels --build do.

It runs `rt ci` on a copy of these crates, so that the sources may be changed meanwhile, and what it proves counts for the gate too. The program then lies in
crates/PROGRAM/out; its time is that at which the copy was begun, so that a source changed since then is newer. The log is out/build.log."""
import os, pathlib, shutil, sys, tempfile, time
from programs import CRATES, HOST, TOP, below, built, crates_lines
from progress import Progress


def copy_to(room, lines):
    """Copies these crates without what was made of them, as a repository of their own."""
    (room / ".git").mkdir()
    shutil.copy(TOP / "HANDLES", room)
    (room / "crates.txt").write_text("".join(f"{line}\n" for line, _ in lines.values()))
    for name in lines:
        shutil.copytree(CRATES / name, room / "crates" / name, ignore=lambda folder, _: ["out", "must-fail"] if pathlib.Path(folder).parent == CRATES else [])


def main():
    every, began = crates_lines(), time.time()
    wanted = sys.argv[1] if len(sys.argv) == 2 else HOST
    if sys.argv[2:] or wanted not in every:
        sys.exit(__doc__)
    lines = {name: every[name] for name in every if name in [*below(wanted, every), wanted]}
    with tempfile.TemporaryDirectory(prefix="tkhost-build-") as folder:
        room = pathlib.Path(folder)
        copy_to(room, lines)
        progress = Progress("build", lines, TOP / "out" / "build.log")
        progress.begin_with_lowest(room)
        made = room / "crates" / wanted / "out" / wanted
        if progress.follow(["rt", "ci"], room) or not made.exists():
            print(f"build: not built; {os.path.relpath(TOP / 'out' / 'build.log')} says why")
            return 1
        program = built(wanted)
        program.parent.mkdir(exist_ok=True)
        shutil.copy(made, f"{program}.new")
        os.utime(f"{program}.new", (began, began))
        os.replace(f"{program}.new", program)
    print(f"built {os.path.relpath(program)}")
    return 0


if __name__ == "__main__":
    sys.exit(main())
