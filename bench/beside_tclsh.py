#!/usr/bin/env python3
"""beside_tclsh.py PROGRAM [SCRIPT..]: times the scripts of bench/scripts, or those named, in the host and in tclsh 8.6, side by side.

Each script is the one application of a session with a budget of 10,000,000 steps. What it prints has to be the same in both. The times are those of
the processor, in seconds, the least of three runs, less those of a script that does nothing; the ratio is the host's time to that of tclsh."""
import os, pathlib, sys, tempfile
from timing import least, printed, session, well

HERE = pathlib.Path(__file__).resolve().parent
SIZE = (100, 50)


def in_host(program, script):
    return least(lambda: well([program], session(1, SIZE, script)))


def in_tclsh(script):
    return least(lambda: well(["tclsh", str(script)]))


def main():
    if len(sys.argv) < 2:
        sys.exit(__doc__)
    program = os.path.abspath(sys.argv[1])
    scripts = [pathlib.Path(name) for name in sys.argv[2:]] or sorted((HERE / "scripts").glob("*.tcl"))
    with tempfile.NamedTemporaryFile(suffix=".tcl") as nothing:
        idle = in_host(program, "")[0], in_tclsh(nothing.name)[0]
    failed = False
    for script in scripts:
        host, section = in_host(program, script.read_text())
        tclsh, wanted = in_tclsh(script)
        host, tclsh = max(host - idle[0], 0.001), max(tclsh - idle[1], 0.001)
        same = printed(section, 1) == wanted
        failed |= not same
        print(f"{script.stem:22} host {host:7.3f}  tclsh {tclsh:7.3f}  ratio {host / tclsh:6.2f}" + ("" if same else "  PRINTS SOMETHING ELSE"))
    sys.exit(1 if failed else 0)


if __name__ == "__main__":
    main()
