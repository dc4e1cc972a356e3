#!/usr/bin/env python3
"""c_library.py [--whole]: the host as a library for C, C++, Rust and Python: each call, rightly and wrongly, and sessions line by line.

./install puts the library into a folder of its own, and what stands on it is built and run there. Where the library isn't built, it is built first over
what the gate left, of which `rt lib` would prove all again; where the gate left nothing, it says so and tries nothing. So it goes:

- c_library.c, which makes each call and each wrong use; also under valgrind, and with gcc's sanitizers of addresses and undefined behaviour;
- each stored session by tkhost_play and line by line through tkhost_line, in slices of 1, 7 and 64 steps: the bytes that are stored beside it, or its fault;
- random sessions in the same way: the bytes of the program that the gate left;
- which application asked for memory, with each request refused in turn, one in each run;
- calls in wrong orders with wrong values, 10,000 in each of three runs, of which one is sanitized;
- the examples of contrib/c in C and C++, which write what README.md shows, the blocks of code of README.md and docs/embedding.md, which stand in contrib/, and the
  tests of contrib/python and contrib/rust.

gcc has to be there. What else isn't at hand (g++, valgrind, cargo, the program) is told, and the last line counts what was tried. The SDL example is built and run where
pkg-config finds SDL 2, with a click on its button where Xvfb and xdotool are there. --whole tries 300 random sessions, 100,000 calls in wrong orders in each run, and counts the instructions of a million lines
through tkhost_line beside the program's, of which they may take 1.3 times as many at most."""
import concurrent.futures, os, pathlib, re, shutil, subprocess, sys, tempfile, time
from documents import blocks
from panels import Panels, block, session
from programs import CRATES, EXAMPLES, HOST, TOP, below, built, crates_lines
from sessions import stored, wanted

SLICES = (1, 7, 64)
CONTRIB = TOP / "contrib"
SANITIZERS = ["-g", "-fsanitize=address,undefined", "-fno-sanitize-recover=all"]
WARNINGS = ["-Wall", "-Wextra", "-Werror"]
VALGRIND = ["valgrind", "-q", "--error-exitcode=9", "--leak-check=full", "--errors-for-leak-kinds=all"]
LINES, MOST = 1_000_000, 1.3


class Told:
    """What was tried and what wasn't so."""

    def __init__(self):
        self.tried, self.faults, self.missing = {}, [], []

    def add(self, what, fault=None, count=1):
        self.tried[what] = self.tried.get(what, 0) + count
        if fault:
            self.faults.append(f"{what}: {fault}")

    def has(self, tool):
        found = shutil.which(tool)
        if not found and tool not in self.missing:
            self.missing.append(tool)
        return found


def run(command, **given):
    return subprocess.run(command, capture_output=True, **{"timeout": 600, **given})


def must(command, **given):
    """Runs what the rest stands on."""
    ended = run(command, **given)
    if ended.returncode:
        sys.exit(f"{' '.join(map(str, command))} ended with {ended.returncode}:\n{(ended.stdout + ended.stderr).decode(errors='replace')[-3000:]}")
    return ended.stdout


def differs(ended, status, stdout, stderr=b""):
    """What of how a program ended isn't what was wanted."""
    if (ended.returncode, ended.stdout, ended.stderr) == (status, stdout, stderr):
        return None
    return f"{' '.join(map(str, ended.args))} ended with {ended.returncode}: {ended.stdout[-300:]} {ended.stderr[-600:]}"


# ---- the library

def changed(name):
    """When the newest text of a crate was written."""
    return max(it.stat().st_mtime for part in ("src", "specs", "proofs") for it in (CRATES / name / part).rglob("*") if it.is_file())


def build():
    """Sees that the library is built, or says what is missing. The gate proves it and leaves no archive, and leaves the libraries below without the marks
    by which `rt lib` knows them; what builds a static library in the kit takes them as they are."""
    lines = crates_lines()
    archive, deps = CRATES / "tkhost_c" / "out" / "libtkhost_c.a", below("tkhost_c", lines)
    # (./install goes by the same)
    if archive.exists() and max((TOP / "crates.txt").stat().st_mtime, *map(changed, lines)) <= archive.stat().st_mtime:
        return None
    for dep in deps:
        left = CRATES / dep / "out" / "rlib"
        if not left.exists() or changed(dep) > left.stat().st_mtime:
            return f"the library {dep}, which the gate leaves"
    kit = pathlib.Path(must(["rt", "doc"]).decode().strip()).parent
    archive.parent.mkdir(exist_ok=True)
    words = f"import sys; sys.path.insert(0, {str(kit / 'bin')!r}); import rtlib; sys.exit(rtlib.Crate({str(CRATES / 'tkhost_c')!r}, {str(TOP)!r}, {{}}).build_static([]))"
    must([sys.executable, "-c", words], cwd=CRATES / "tkhost_c", timeout=3600)
    return None


# ---- sessions

def random_session(seed):
    """One to four random panels side by side, in format 2 where a rectangle moves."""
    panels = Panels(seed)
    names = ["p%d" % place for place in range(panels.between(1, 4))]
    blocks = [block(name, (place * 120, 0, 100, 80), "%d/%d" % (panels.budget(), panels.pick([0, 3, 50])), panels.aliases(), panels.script()) for place, name in enumerate(names)]
    lines, end = panels.lines(lambda: (panels.between(0, 120 * len(names)), panels.between(0, 100)), names)
    if panels.chance(0.5):
        at = panels.between(0, len(lines))
        moment = lines[at - 1][0] if at else 0
        lines.insert(at, (moment, "rect %s %d 200 %d %d" % (panels.pick(names), panels.between(0, 900), panels.between(1, 300), panels.between(1, 90))))
    return session(blocks, lines, end, 2)


def sessions_as_wanted(told, program, what, cases):
    """Plays sessions whole and line by line. A case is a path, a status and what the program writes."""
    def play(case):
        path, status, stdout, stderr = case
        found = []
        for slice in SLICES:
            found.append(differs(run([program, "play", path, str(slice)]), status, stdout, stderr))
            if status == 0:
                found.append(differs(run([program, "lines", path, str(slice)]), status, stdout, stderr))
        return found

    with concurrent.futures.ThreadPoolExecutor(os.cpu_count()) as pool:
        for found in pool.map(play, cases):
            for fault in found:
                told.add(what, fault)


def stored_sessions(told, program):
    names, faults = stored()
    told.faults += faults
    sessions_as_wanted(told, program, "runs of stored sessions", [(EXAMPLES / (name + ".session"), *wanted(name)) for name in names])


def random_sessions(told, program, folder, count):
    if not built(HOST).exists():
        told.missing.append(f"the program {HOST}, so no random session was tried")
        return
    cases = []
    for seed in range(count):
        path = folder / f"random-{seed}.session"
        path.write_bytes(random_session(seed))
        with open(path, "rb") as given:
            ended = run([built(HOST)], stdin=given)
        cases.append((path, ended.returncode, ended.stdout, ended.stderr))
    sessions_as_wanted(told, program, "runs of random sessions", cases)


# ---- instructions

def instructions(command, **given):
    """How many instructions a program takes, by callgrind."""
    with tempfile.TemporaryDirectory() as folder:
        ended = run(["valgrind", "--tool=callgrind", f"--callgrind-out-file={folder}/out", *map(str, command)], timeout=3600, **given)
    found = re.search(rb"Collected : (\d+)", ended.stderr)
    if ended.returncode or not found:
        sys.exit(f"callgrind of {command} ended with {ended.returncode}: {ended.stderr[-500:]}")
    return int(found[1])


def cost_of_lines(told, program, folder):
    if not told.has("valgrind") or not built(HOST).exists():
        return
    sys.path.insert(0, str(TOP / "bench"))
    from lines import PLAYED, write
    path = folder / "lines.session"
    write(path, [0], LINES, 1, PLAYED)
    with open(path, "rb") as given:
        alone = instructions([built(HOST)], stdin=given)
    through = instructions([program, "keep", path, "64"])
    print(f"instructions of {LINES:,} lines: the program {alone:,}, tkhost_line {through:,}, {through / alone:.3f} times as many")
    told.add("counts of instructions", None if through <= MOST * alone else f"more than {MOST} times the program's")


# ---- examples and wrappers

def shown_in(page):
    """The blocks of a page that have to stand so in a file of contrib/, and the output that is shown behind one in C."""
    found = list(blocks(TOP / page))
    shown = [text for (_, kind, _), (_, after, text) in zip(found, found[1:]) if kind == "c" and after == "output"]
    return [text for _, kind, text in found if kind in ("c", "cpp", "python")], shown


def examples(told, flags, libs, folder):
    sources = [it.read_text() for it in sorted(CONTRIB.rglob("*")) if it.suffix in (".c", ".cpp", ".h", ".py")]
    outputs = []
    for page in "README.md", "docs/embedding.md":
        texts, shown = shown_in(page)
        outputs += shown
        for text in texts:
            told.add("blocks of documents", None if any(text in it for it in sources) else f"{page} shows what no file of contrib/ has: {text[:200]}")
    for source, tool, standard in ("gauge.c", "gcc", "-std=c11"), ("gauge.cpp", "g++", "-std=c++17"):
        if told.has(tool):
            program = folder / source.replace(".", "-")
            must([tool, standard, *WARNINGS, *SANITIZERS, CONTRIB / "c" / source, *flags, *libs, "-o", program])
            told.add("examples", differs(run([program]), 0, outputs[0].encode() if outputs else b"what README.md shows"))
    if told.has("pkg-config"):
        sdl = run(["pkg-config", "--cflags", "--libs", "sdl2"])
        if sdl.returncode:
            told.missing.append("SDL 2, so kiosk.c wasn't built")
        else:
            must(["gcc", "-std=c11", CONTRIB / "c" / "kiosk.c", *flags, *libs, *sdl.stdout.decode().split(), "-o", folder / "kiosk"])
            told.add("examples", kiosk(told, folder))


def kiosk(told, folder):
    """Runs the kiosk, in a display of its own with a pointer that presses its button where they are at hand, and ends it; what is wrong with that."""
    panel, shown, environment, server = folder / "panel.tcl", folder / "kiosk.shown", {**os.environ, "SDL_VIDEODRIVER": "dummy"}, None
    panel.write_text("pack [button .b -text Go -command {puts hit}] -expand 1 -fill both; after 50 {puts soon}")
    if told.has("Xvfb") and told.has("xdotool"):
        number, given = os.pipe()
        server = subprocess.Popen(["Xvfb", "-displayfd", str(given), "-screen", "0", "400x300x24"], pass_fds=[given], stdout=subprocess.DEVNULL, stderr=subprocess.DEVNULL)
        os.close(given)
        with os.fdopen(number) as line:
            environment = {**os.environ, "DISPLAY": ":" + line.readline().strip(), "SDL_VIDEODRIVER": "x11"}
    wanted = [b"\nout 50 soon\n"] + [b" hit\n"] * bool(server)
    with open(shown, "wb") as to:
        process = subprocess.Popen([folder / "kiosk", panel], env=environment, stdout=to, stderr=subprocess.PIPE)
    for at in range(100):
        if server:
            run(["xdotool", "mousemove", str(100 + at % 2), "100", "click", "1"], env=environment)
        if all(it in shown.read_bytes() for it in wanted):
            break
        time.sleep(0.1)
    # (SDL makes a quit event of it)
    process.terminate()
    _, said = process.communicate(timeout=60)
    if server:
        server.terminate()
        server.wait()
    is_well = process.returncode == 0 and not said and all(it in shown.read_bytes() for it in wanted)
    return None if is_well else f"kiosk ended with {process.returncode}: {said[-300:]} {shown.read_bytes()[-600:]}"


def wrappers(told, prefix, folder):
    environment = {**os.environ, "TKHOST_LIBRARY": str(prefix / "lib" / "libtkhost.so"), "PYTHONDONTWRITEBYTECODE": "1"}
    ended = run([sys.executable, "test_tkhost.py"], cwd=CONTRIB / "python", env=environment)
    found = re.search(rb"Ran (\d+) tests", ended.stderr)
    told.add("tests of the wrapper in Python", None if ended.returncode == 0 and found else ended.stderr[-1500:].decode(), int(found[1]) if found else 1)
    # where it is installed it finds the library by itself
    ended = run([sys.executable, "-c", "import tkhost; print(tkhost.text(65))"], cwd=prefix / "share" / "tkhost", env={**os.environ, "PYTHONDONTWRITEBYTECODE": "1"})
    told.add("tests of the wrapper in Python", differs(ended, 0, b"no host\n"))
    if told.has("cargo"):
        environment = {**os.environ, "TKHOST_LIB_DIR": str(prefix / "lib"), "CARGO_TARGET_DIR": str(folder / "target"), "CARGO_NET_OFFLINE": "true"}
        # (in a copy, so that cargo leaves no lock in the tree)
        crate = shutil.copytree(CONTRIB / "rust", folder / "rust")
        ended = run(["cargo", "test", "--offline", "--quiet"], cwd=crate, env=environment)
        count = sum(map(int, re.findall(rb"test result: ok\. (\d+) passed", ended.stdout)))
        told.add("tests of the wrapper in Rust", None if ended.returncode == 0 and count else (ended.stdout + ended.stderr)[-1500:].decode(), count or 1)


# ---- calls

def calls(told, plain, sanitized):
    for how, command in ("calls", [plain]), ("calls, sanitized", [sanitized]), ("calls under valgrind", [*VALGRIND, plain] if told.has("valgrind") else None):
        if command:
            ended = run([*command, "calls"])
            found = re.fullmatch(rb"(\d+) answers right, 0 wrong\n", ended.stdout)
            told.add(how, None if ended.returncode == 0 and found else f"ended with {ended.returncode}: {(ended.stdout + ended.stderr)[-1500:].decode()}", int(found[1]) if found else 1)


def wrong_orders(told, plain, sanitized, count):
    runs = [[plain, "fuzz", str(count), "1"], [sanitized, "fuzz", str(count), "2"], [plain, "fuzz", str(count), "3"]]
    if told.has("valgrind") and count > 10_000:
        runs.append([*VALGRIND, plain, "fuzz", str(count // 10), "4"])
    for command in runs:
        ended = run(command, timeout=3600)
        done = sum(int(line.split()[1]) for line in ended.stdout.splitlines()) if ended.returncode == 0 else 0
        told.add("calls in wrong orders", None if ended.returncode == 0 and not ended.stderr else f"ended with {ended.returncode}: {ended.stderr[-1500:].decode()}", done or 1)


def refused_requests(told, plain, folder):
    """Which application asked for memory, where one request is refused, until a run meets no refusal."""
    library, met = folder / "refusing.so", folder / "met"
    must(["gcc", "-shared", "-fPIC", "-O1", "-o", library, TOP / "tests" / "refusing.c", "-ldl"])
    number, heard = 0, set()
    while not number or met.stat().st_size:
        number += 1
        ended = run(["sh", "-c", 'LD_PRELOAD="$1" REFUSE="$2" exec "$0" asker 9>"$3"', plain, library, str(number), met])
        heard.add((ended.returncode, ended.stdout.decode()))
    # (the start's answer, the asker's, and the slot; nothing where applications couldn't be added)
    wanted = {(0, said) for said in ("", "0 37 9\n", "64 0 0\n", "64 0 1\n")}
    told.add("refused requests", None if heard == wanted else f"{sorted(heard)}", number - 1)


def main():
    words = sys.argv[1:]
    if words not in ([], ["--whole"]):
        sys.exit(__doc__)
    whole, told = bool(words), Told()
    if not told.has("gcc"):
        sys.exit("c_library: gcc isn't there")
    missing = build()
    if missing:
        print(f"c_library: not at hand: {missing}; nothing tried, 0 faults")
        return 0
    with tempfile.TemporaryDirectory() as name:
        folder = pathlib.Path(name)
        prefix, plain, sanitized = folder / "prefix", folder / "c_library", folder / "c_library-sanitized"
        must([TOP / "install", prefix], timeout=7200)
        flags, libs = [f"-I{prefix / 'include'}"], [prefix / "lib" / "libtkhost.a"]
        if told.has("pkg-config"):
            said = must(["pkg-config", "--cflags", "--libs", "tkhost"], env={**os.environ, "PKG_CONFIG_PATH": str(prefix / "lib" / "pkgconfig")})
            told.add("examples", None if said.decode().split() == [f"-I{prefix}/include", f"-L{prefix}/lib", "-ltkhost"] else f"pkg-config says {said}")
        source = ["-std=c11", "-D_GNU_SOURCE", *WARNINGS, TOP / "tests" / "c_library.c", *flags, *libs]
        must(["gcc", "-g", "-O1", *source, "-o", plain])
        must(["gcc", *SANITIZERS, *source, "-o", sanitized])
        calls(told, plain, sanitized)
        examples(told, flags, libs, folder)
        wrappers(told, prefix, folder)
        stored_sessions(told, plain)
        random_sessions(told, plain, folder, 300 if whole else 30)
        refused_requests(told, plain, folder)
        wrong_orders(told, plain, sanitized, 100_000 if whole else 10_000)
        if whole:
            cost_of_lines(told, plain, folder)
    for fault in told.faults:
        print(fault)
    if told.missing:
        print("not at hand: " + "; ".join(told.missing))
    print("c_library: " + ", ".join(f"{count} {what}" for what, count in told.tried.items()) + f"; {len(told.faults)} faults")
    return 1 if told.faults else 0


if __name__ == "__main__":
    sys.exit(main())
