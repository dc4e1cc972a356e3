#!/usr/bin/env python3
"""wrong_bodies.py [--whole|--due|--gate] [NAME..]: sees that the prover refuses each wrong body of crates/NAME/wrong_bodies.edits.

Such a file has a block for each body, between blank lines: `body: WORDS-OF-A-NAME`, and then what `rt` reads in a file of an edit, lines
`file: src/lib.rt`, and `old:` and `new:` with the text that stands there once and what takes its place. A line in a block of its own that begins
with # says something.

A crate's wrong bodies are due unless tests/wrong_bodies.tried has its line: its name and a digest of all that decides the answer (its sources,
definitions, proofs and wrong bodies, its line in crates.txt, the prover). The prover is what `rt version` says behind the name of the kit, as
`logic dac8208d650f15bf`: kits of several names have the same. Those that are due are tried, of the crates named or of all, and a crate whose
wrong bodies were all refused gets its line. --whole tries them whatever the ledger says; --due only lists the crates
that are due. Exit status 1 where a wrong body wasn't refused.

Work is done in copies of the tree, so that it runs beside other work. A crate is proved (over what the tree's own checks kept), and its wrong
bodies are laid in together, those of one function in rounds of their own. One counts as refused only where the prover says of its own
function, in its own lines, that what it ensures isn't proved; any other is tried alone by `rt must-fail`.

--gate runs `rt ci` in the tree itself, with the wrong bodies that are due laid where rt looks for them, crates/NAME/must-fail, so that rt
tries each from nothing. They are taken away when it ends, however it ends. Where more than 150 are due, as after a change of a crate on which all
others stand, they would take hours: the gate then tries none, says how many are due, and they are tried by this program without a flag. The crate on which most others stand is proved before, alone, so that all
processors work at it. How far it is, progress.py shows; the log is out/gate.log."""
import collections, concurrent.futures, fcntl, hashlib, os, pathlib, re, resource, shutil, signal, subprocess, sys, tempfile, threading, time
from programs import TOP, below, crates_lines
from progress import Progress

LEDGER = TOP / "tests" / "wrong_bodies.tried"
PARTS = ("src", "specs", "proofs")
# How many wrong bodies the gate tries at most: one takes up to a minute of one processor.
MOST_AT_GATE = 150
# What a check reports of a function at fault; that it rests on another one that is at fault says nothing of its own body.
AT_FAULT = re.compile(r"^fn (\S+): (?!proved)(?!no proof: it calls )(?!not proved: it calls )", re.M)
PLACE = re.compile(r"^note: (src/\S+?):(\d+):\d+: it is not proved", re.M)
# An answer of the function's own that doesn't hold any more; one that only names what is gone tells nothing of the contract.
ANSWER = re.compile(r"^(?:\./)?proofs/(\S+)/[^/\s:]+\.antt:\d+:\d+: error(?!.*(?:has no field|is not in scope|has no `|was not admitted))", re.M)
# A text of the crate that the prover can't read, so that it judged no contract.
UNREAD = re.compile(r"^(?:\./)?(?:src|specs)/\S+:\d+:\d+: error", re.M)
IMPL = re.compile(r"^impl(<[^>]*>)? (?:(.*) for )?(\w+)(?:<(\w+)>)?")
FUNCTION = re.compile(r'^( *)(?:pub(?:\([^)]*\))? )?(?:const )?(?:unsafe )?(?:extern "C" )?fn (\w+)')
saying = threading.Lock()


def say(text):
    with saying:
        print(text, flush=True)


# ---- what there is, and what is due

def bodies_of(name, top=TOP):
    """The text of each of a crate's wrong bodies by its name, in the names' order. A file that is no such list ends the run."""
    file, bodies, body = top / "crates" / name / "wrong_bodies.edits", {}, None
    lines = file.read_text().split("\n") if file.exists() else []
    for number, line in enumerate(lines, 1):
        begins = re.fullmatch(r"body: ([A-Za-z0-9_-]+)", line)
        if not line:
            body = None
        elif begins and body is None and begins[1] not in bodies:
            body = begins[1]
            bodies[body] = ""
        elif body and line.startswith(("file: ", "old: ", "new:")):
            bodies[body] += f"{line}\n"
        elif body or not line.startswith("#"):
            sys.exit(f"{file}:{number}: {'this name is taken' if begins and body is None else 'no such line'}: {line}")
    return {it: bodies[it] for it in sorted(bodies, key=edit_of)}


def edit_of(body):
    """The name of a wrong body's file where rt reads it."""
    return f"{body}.edit"


def read_prover():
    """The prover by which answers are given: what `rt version` says but for the name of the kit that it came in."""
    said = subprocess.run(["rt", "version"], capture_output=True, text=True, check=True).stdout
    named = re.search(r"\blogic \w+", said)
    return named[0] if named else said.strip()


def digest_of(name, line, prover, top=TOP):
    digest = hashlib.sha256(f"{prover}\n{line}\n".encode())
    folder = top / "crates" / name
    for part in PARTS:
        for file in sorted(it for it in (folder / part).rglob("*") if it.is_file()):
            text = file.read_bytes()
            digest.update(f"{file.relative_to(folder)} {len(text)}\n".encode() + text)
    # (each by itself, so that their order in the file doesn't count, nor what is said of them)
    for body, text in bodies_of(name, top).items():
        digest.update(f"wrong-bodies/{edit_of(body)} {len(text.encode())}\n{text}".encode())
    return digest.hexdigest()


def read_ledger():
    if not LEDGER.exists():
        return {}
    return dict(line.split() for line in LEDGER.read_text().splitlines() if len(line.split()) == 2)


def write_line(name, digest, order):
    """Puts a crate's line into the ledger as it is now, so that runs side by side don't undo one another's lines."""
    with open(LEDGER, "a+") as ledger:
        fcntl.flock(ledger, fcntl.LOCK_EX)
        tried = {**read_ledger(), name: digest}
        names = [it for it in order if it in tried] + sorted({*tried} - {*order})
        ledger.truncate(0)
        ledger.write("".join(f"{it} {tried[it]}\n" for it in names))


# ---- one wrong body

class Function(collections.namedtuple("Function", "file path first last")):
    """A function by its file, the end of its path as rt has it, and its lines."""

    def is_one_of(self, paths):
        return any(f"::{it}".endswith(f"::{self.path}") for it in paths)


class Body:
    """A wrong body: what it changes in which files, and the functions in which that stands."""

    def __init__(self, name, text, folder):
        self.name, self.text, self.folder, self.pairs = name, text, folder, []
        path = old = None
        for line in text.split("\n"):
            if line.startswith("file: "):
                path = line[6:].strip()
            elif line.startswith("old: "):
                old = line[5:]
            elif line.startswith("new:") and path and old:
                self.pairs.append((path, old, line[4:].removeprefix(" ")))
                old = None
        self.functions, self.why = [], "it has no 'old:' and 'new:' pair"
        if self.pairs:
            self.why = self.laid_into({}, self.functions)

    def laid_into(self, texts, functions=None):
        """Puts the changed files' texts into `texts`, which has those that others have changed, or says why it can't be done. The functions that are
        changed are added to `functions`."""
        made = dict(texts)
        for path, old, new in self.pairs:
            text = made.get(path)
            if text is None:
                text = (self.folder / path).read_text() if (self.folder / path).is_file() else ""
            if text.count(old) != 1:
                return f"an 'old:' text is in {path} {text.count(old)} times, and not once"
            if functions is not None:
                functions.append(function_at(path, text, text.index(old), old))
            made[path] = text.replace(old, new)
        texts.update(made)
        return None

    @property
    def is_plain(self):
        """Whether it only changes lines inside bodies of functions of src/."""
        return not self.why and all(self.functions)


def function_at(file, text, place, old):
    """The function of which this text is a part of the body, if it is one."""
    lines, number = text.split("\n"), text.count("\n", 0, place)
    if not file.startswith("src/") or re.search(r"\b(fn|ensures|requires|ghost)\b", old):
        return None
    start = number
    while start >= 0 and not FUNCTION.match(lines[start]):
        start -= 1
    if start < 0:
        return None
    indent, name = FUNCTION.match(lines[start]).groups()
    end = next((at for at in range(start, len(lines)) if lines[at] == indent + "}"), start)
    # the signature and its clauses end where a line opens the body
    opens = next((at for at in range(start, end) if lines[at] == indent + "{" or at == start and lines[at].endswith("{")), end)
    if not opens < number < end:
        return None
    path = [it for it in re.sub(r"^src/|(/mod)?\.rt$", "", file).split("/") if it not in ("lib", "main")]
    if indent:
        of = next((IMPL.match(lines[at]) for at in range(start, -1, -1) if IMPL.match(lines[at])), None)
        if not of:
            return None
        # (a type's methods go by its own module, those of one instance of it by the instance too, and the impl of a trait by the type's name and the trait's)
        instance = "+" + of[4] if of[4] and not of[1] and not of[2] else ""
        path = [of[3] + instance + re.sub(r"\W", "", of[2] or "")]
    # (a place in it may be told by its first attribute)
    while start and lines[start - 1].strip().startswith(("#[", "///")):
        start -= 1
    return Function(file, "::".join([*path, name]), start + 1, end + 1)


def is_told(body, said):
    """Whether the prover says of each function that the wrong body changes, in its lines or in its own answers, that something isn't proved."""
    places = {(file, int(line)) for file, line in PLACE.findall(said)}
    faulty, answers = set(AT_FAULT.findall(said)), {it.replace("/", "::") for it in ANSWER.findall(said)}
    return all(
        it.is_one_of(faulty) and (it.is_one_of(answers) or any(file == it.file and it.first <= line <= it.last for file, line in places))
        for it in body.functions
    )


def rounds_of(bodies):
    """The wrong bodies in rounds, in each of which no function is changed twice."""
    rounds = []
    for body in bodies:
        names = set(body.functions)
        room = next((it for it in rounds if not it[0] & names), None)
        if room is None:
            rounds.append(room := (set(), []))
        room[0].update(names)
        room[1].append(body)
    return [bodies for _, bodies in rounds]


# ---- the checks, in copies of the tree

class Room:
    """A copy of some crates of a tree, with what its own checks kept, in which crates are proved."""

    def __init__(self, folder, crates, source, lanes, linked=()):
        self.top, self.lanes = folder, lanes
        shutil.copy(TOP / "HANDLES", folder)
        lines = crates_lines()
        (folder / "crates.txt").write_text("".join(f"{lines[it][0]}\n" for it in crates))
        # rt looks for the repository's top no further than here
        subprocess.run(["git", "init", "-q", folder], check=True)
        for crate in crates:
            to = folder / "crates" / crate
            to.mkdir(parents=True)
            for part in (source / "crates" / crate).iterdir():
                # (of a crate that stays as it is, what was built serves, and no copy of it is wanted)
                if crate in linked and part.name == "out":
                    (to / "out").mkdir()
                    subprocess.run(["cp", "-al", part / "rlib", to / "out"], check=True)
                elif part.name != "must-fail":
                    subprocess.run(["cp", "-a", "--reflink=auto", part, to], check=True)

    def rt(self, folder, *words):
        with self.lanes:
            ended = subprocess.run(["rt", *words], cwd=folder, stdin=subprocess.DEVNULL, stdout=subprocess.PIPE, stderr=subprocess.STDOUT, text=True, errors="replace")
        return ended.returncode, ended.stdout

    def prove(self, name, is_library):
        return self.rt(self.top / "crates" / name, "lib" if is_library else "check", "--jobs", "2")

    def check_with(self, name, texts, only):
        """How a check ends with these texts in place of the crate's own, and what it says."""
        folder = self.top / "crates" / name
        own = {path: (folder / path).read_text() for path in texts}
        try:
            for path, text in texts.items():
                (folder / path).write_text(text)
            return self.rt(folder, "check", "--jobs", "2", *only)
        finally:
            for path, text in own.items():
                (folder / path).write_text(text)

    def together(self, name, bodies):
        """Those of these wrong bodies of which a check of their functions alone, with all laid in, doesn't say that they are at fault."""
        texts = {}
        laid = [body for body in bodies if body.laid_into(texts) is None]
        paths = sorted({it.path for body in laid for it in body.functions})
        status, said = self.check_with(name, texts, [word for path in paths for word in ("--only", path)])
        if os.environ.get("WRONG_BODIES_LOG"):
            pathlib.Path(os.environ["WRONG_BODIES_LOG"], f"{name}.{len(bodies)}").write_text(said)
        if status == 2:
            say(f"{name}: {said.strip().splitlines()[-1]}")
        return [body for body in bodies if body not in laid or status != 1 or not is_told(body, said)]

    def alone(self, name, body):
        """Whether a wrong body is refused when it is tried alone: over what was proved, or else by rt itself, from nothing."""
        texts = {}
        body.laid_into(texts)
        status, said = self.check_with(name, texts, [])
        if status == 1 and "\nlogic=not-proved" in said and AT_FAULT.search(said) and not UNREAD.search(said):
            return True, ""
        folder = self.top / "crates" / name / "must-fail"
        folder.mkdir(exist_ok=True)
        (folder / edit_of(body.name)).write_text(body.text)
        try:
            status, said = self.rt(self.top, "must-fail", name)
        finally:
            shutil.rmtree(folder)
        told = [line for line in said.splitlines() if f"must-fail {name}/{edit_of(body.name)}:" in line]
        return status == 0 and any("refused, as it must be" in line for line in told), (told or said.splitlines() or [""])[-1]


def try_bodies(room, name):
    """Whether each wrong body of the crate, which is proved, is refused."""
    folder, started = room.top / "crates" / name, time.monotonic()
    bodies = [Body(*it, folder) for it in bodies_of(name, room.top).items()]
    faults = [f"{name}/{body.name}: {body.why}" for body in bodies if body.why]
    rounds = rounds_of([body for body in bodies if body.is_plain])
    left = [body for body in bodies if not body.is_plain and not body.why]
    for laid in rounds:
        left += room.together(name, laid)
    for body in left:
        refused, why = room.alone(name, body)
        if not refused:
            faults.append(f"{name}/{body.name}: NOT REFUSED: {why}")
    for fault in faults:
        say(fault)
    told = f", {len(left)} of them alone: {' '.join(body.name for body in left)}" if left else ""
    say(f"{name}: {len(bodies) - len(faults)} of {len(bodies)} wrong bodies refused, in {time.monotonic() - started:.0f} s{told}")
    return not faults


def run(names, lines, prover):
    """Tries the wrong bodies of these crates, each once what is below it is proved; those that are all refused get their line."""
    needed = [it for it in lines if any(it == name or it in below(name, lines) for name in names)]
    # a check takes two jobs
    lanes = threading.BoundedSemaphore(max(1, len(os.sched_getaffinity(0)) // 2))
    with tempfile.TemporaryDirectory(prefix="wrong-bodies-") as folder, concurrent.futures.ThreadPoolExecutor(len(needed)) as pool:
        proving = pathlib.Path(folder, "proving")
        proving.mkdir()
        room, done = Room(proving, needed, TOP, lanes), {}

        def work(name):
            if not all([done[it].result() for it in lines[name][1]]):
                return False
            is_library = (proving / "crates" / name / "src" / "lib.rt").exists()
            status, said = room.prove(name, is_library)
            if status:
                say(f"{name}: NOT PROVED\n" + "\n".join(said.splitlines()[-20:]))
            return status == 0

        def tried(name):
            if not done[name].result():
                return False
            digest = digest_of(name, lines[name][0], prover, proving)
            # (in a copy of its own, so that the crates above go on being proved over it as it is)
            laid = pathlib.Path(folder, name)
            laid.mkdir()
            try:
                well = try_bodies(Room(laid, [*below(name, lines), name], proving, lanes, below(name, lines)), name)
            finally:
                shutil.rmtree(laid)
            if well:
                write_line(name, digest, lines)
            return well

        # (a crate waits for those below it, which were handed to the pool before it)
        for name in needed:
            done[name] = pool.submit(work, name)
        with concurrent.futures.ThreadPoolExecutor(len(names)) as trying:
            return all([it.result() for it in [trying.submit(tried, name) for name in names]])


# ---- the gate, in the tree itself

def clear_laid():
    for folder in (TOP / "crates").glob("*/must-fail"):
        shutil.rmtree(folder, ignore_errors=True)


def gate(due, lines, prover):
    """Runs `rt ci` with these crates' wrong bodies laid in. Each crate of which rt says that all were refused gets its line."""
    # one gate at a time in a tree; the lock goes with this process
    fcntl.flock(os.open(TOP / "tests", os.O_RDONLY), fcntl.LOCK_EX)
    clear_laid()
    for number in (signal.SIGTERM, signal.SIGHUP, signal.SIGINT):
        signal.signal(number, lambda number, _: sys.exit(128 + number))
    # takes them away also where this process is killed, unless the next gate has begun
    watch = subprocess.Popen(["sh", "-c", f"while kill -0 {os.getpid()}; do sleep 1; done; flock -n tests rm -rf crates/*/must-fail"], cwd=TOP, stderr=subprocess.DEVNULL, start_new_session=True)
    digests, refused = {name: digest_of(name, lines[name][0], prover) for name in due}, set()
    started, ends = time.monotonic(), []

    def each(line):
        told = re.match(r"rt: must-fail (\w+)/(\S+)\.edit: refused, as it must be", line)
        if told:
            refused.add(told.groups())
        proved = re.match(r"rt: (\w+)(: its tests are)? proved$", line)
        if proved:
            ends.append(f"{proved[1]}{' (tests)' if proved[2] else ''} {time.monotonic() - started:.0f}")

    try:
        progress = Progress("gate", lines, TOP / "out" / "gate.log")
        progress.begin_with_lowest(TOP, each)
        for name in due:
            (TOP / "crates" / name / "must-fail").mkdir()
            for body, text in bodies_of(name).items():
                (TOP / "crates" / name / "must-fail" / edit_of(body)).write_text(text)
        status = progress.follow(["rt", "ci"], TOP, each)
    finally:
        clear_laid()
        watch.kill()
    used = resource.getrusage(resource.RUSAGE_CHILDREN)
    say(f"seconds at which proofs had ended: {', '.join(ends)}; all {time.monotonic() - started:.0f}, of processor time {used.ru_utime + used.ru_stime:.0f}")
    open_still = [f"{name}/{body}" for name in due for body in bodies_of(name) if (name, body) not in refused]
    for name in due:
        if all((name, body) in refused for body in bodies_of(name)):
            write_line(name, digests[name], lines)
    for it in open_still:
        say(f"{it}: not refused")
    return 1 if status or open_still else 0


def main():
    words = sys.argv[1:]
    flags, names = {it for it in words if it.startswith("-")}, [it for it in words if not it.startswith("-")]
    lines = crates_lines()
    if flags - {"--whole", "--due", "--gate"} or len(flags) > 1 or [it for it in names if it not in lines]:
        sys.exit(__doc__)
    by = read_prover()
    tried = {} if "--whole" in flags else read_ledger()
    due = [it for it in (names or lines) if bodies_of(it) and tried.get(it) != digest_of(it, lines[it][0], by)]
    if "--due" in flags:
        print("".join(f"{it}\n" for it in due), end="")
        return 0
    if "--gate" in flags:
        count = sum(len(bodies_of(it)) for it in due)
        if count > MOST_AT_GATE:
            say(f"{count} wrong bodies of {len(due)} crates are due, more than the gate tries: tests/wrong_bodies.py tries them")
            due = []
        return gate(due, lines, by)
    if not due:
        print("no wrong bodies are due")
        return 0
    return 0 if run(due, lines, by) else 1


if __name__ == "__main__":
    sys.exit(main())
