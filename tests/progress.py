"""Shows how far a long run of `rt ci` is, and keeps all that it says in a file: crates proved of all, minutes gone, and an estimate of those left.

What fails is shown, and what `rt` says at the end. On a terminal the line on the progress is written anew again and again; elsewhere there is one for each
crate that is proved, and now and then."""
import os, re, subprocess, sys, threading, time
from programs import CRATES, TOP, below

# The end of what rt says of a crate, which it begins by a line `== NAME`.
ENDED = re.compile(r"rt: (\w+)(: its tests are)? (proved|NOT PROVED|is kept)\b")
# What is shown too, wherever it stands; and what isn't of a crate that fails.
TOLD = re.compile(r"rt: (FAILED|ok;|note:|warning|waiting|the disk)|.*(NOT REFUSED|NOT TRIED|BAD EDIT|another run on this machine)|\d+ passed, \d+ failed|rt: \w+.*(: the program |: what the program wrote)")
WELL = re.compile(r"(fn|struct|enum|impl|const|static|trait|statements|axioms|logic) .*(: proved|: modules loaded|: libraries=|declared\))")
SECONDS_ON_TERMINAL, SECONDS_ELSEWHERE = 5, 300


def processors():
    return len(os.sched_getaffinity(0))


def weights(lines):
    """The seconds of one processor that each crate's proof takes: by the table of docs/costs.md, and where it has no line for a crate, by its lines."""
    costs = TOP / "docs" / "costs.md"
    table = costs.read_text().partition("| Crate | s |")[2].partition("\n\n")[0] if costs.exists() else ""
    measured = {name: int(seconds) for name, seconds in re.findall(r"(\w+) \| (\d+) (?=\|)", table)}

    def by_lines(name):
        source = CRATES / name / "src"
        return 10 + sum(len(it.read_bytes().splitlines()) for it in source.rglob("*.rt")) * 0.15 + 250 * (source / "main.rt").exists()

    return {name: measured.get(name) or by_lines(name) for name in lines}


def seconds_of(todo, lines, weight, lanes):
    """How long the proofs of these crates take on so many processors: each waits for those below it, those with the longest chain above them go first,
    and one gets the processors that no other waits for, of which the second and further ones are taken to be worth half."""
    behind = {}
    for name in reversed(list(lines)):
        behind[name] = weight[name] + max((behind[it] for it in behind if name in lines[it][1]), default=0)
    todo, running, now = set(todo), {}, 0.0
    while todo or running:
        ready = sorted((it for it in todo if not any(dep in todo or dep in running for dep in lines[it][1])), key=lambda it: -behind[it])
        for at, name in enumerate(ready):
            idle = lanes - sum(jobs for _, jobs in running.values())
            if not idle:
                break
            jobs = min(4, max(1, idle // (len(ready) - at)))
            running[name] = now + weight[name] / (1 + (jobs - 1) / 2), jobs
            todo.discard(name)
        first = min(running, key=lambda it: running[it][0])
        now = running.pop(first)[0]
    return now


def minutes(seconds):
    return f"{max(0, round(seconds / 60))} min"


class Progress:
    """The progress of proofs of these crates, and the log, whose path is told at once."""

    def __init__(self, what, lines, log):
        self.lines, self.weight, self.lanes, self.started = lines, weights(lines), processors(), time.monotonic()
        self.proved, self.is_terminal, self.writing, self.over = set(), sys.stdout.isatty(), threading.Lock(), threading.Event()
        self.whole = self.left = seconds_of(lines, lines, self.weight, self.lanes)
        self.told = self.started
        log.parent.mkdir(exist_ok=True)
        self.log = open(log, "w", buffering=1)
        print(f"{what}: {len(lines)} crates on {self.lanes} processors, some {minutes(self.whole)} where nothing is kept; the log is {os.path.relpath(log)}", flush=True)

    def is_proved(self, name):
        """Notes that a crate is proved, and estimates anew: the crates that are done tell how fast this machine is, beside five minutes at the measured pace."""
        if name in self.lines:
            self.proved.add(name)
            ahead = seconds_of(set(self.lines) - self.proved, self.lines, self.weight, self.lanes)
            gone = time.monotonic() - self.started
            self.left, self.told = ahead * (gone + 300) / (self.whole - ahead + 300), time.monotonic()

    def line(self):
        now = time.monotonic()
        left = self.left - (now - self.told)
        done = f"{len(self.proved)} of {len(self.lines)} crates proved, {minutes(now - self.started)} gone"
        if self.over.is_set() or len(self.proved) == len(self.lines):
            return done
        return f"{done}, {f'some {minutes(left)} left' if left > 60 else 'soon done'}"

    def show(self, text):
        """Writes lines above that of the progress."""
        with self.writing:
            print(("\r\x1b[K" if self.is_terminal else "") + text, flush=True)

    def tick(self):
        while not self.over.wait(SECONDS_ON_TERMINAL if self.is_terminal else SECONDS_ELSEWHERE):
            with self.writing:
                print(f"\r\x1b[K{self.line()}" if self.is_terminal else self.line(), end="" if self.is_terminal else "\n", flush=True)

    def follow(self, words, folder, each=lambda line: None):
        """Runs a command, and follows the lines that it says; its exit status."""
        ticking = threading.Thread(target=self.tick, daemon=True)
        self.over.clear()
        ticking.start()
        running = subprocess.Popen(words, cwd=folder, stdin=subprocess.DEVNULL, stdout=subprocess.PIPE, stderr=subprocess.STDOUT, text=True, errors="replace")
        section = []
        try:
            for line in running.stdout:
                self.log.write(line)
                each(line)
                section = [*section, line.rstrip("\n")] if section or line.startswith("== ") else []
                ended = ENDED.match(line)
                if ended and ended[3] != "NOT PROVED" and not ended[2]:
                    self.is_proved(ended[1])
                    if not self.is_terminal:
                        self.show(f"{ended[1]} {ended[3]}: {self.line()}")
                elif ended and ended[3] == "NOT PROVED":
                    self.show("\n".join([it for it in section if not WELL.match(it)] or [line.rstrip("\n")]))
                elif TOLD.match(line) and not section:
                    self.show(line.rstrip("\n"))
                if ended:
                    section = []
        finally:
            if running.poll() is None:
                running.terminate()
            status = running.wait()
            self.over.set()
            ticking.join()
            self.show(self.line())
        return status

    def begin_with_lowest(self, folder, each=lambda line: None):
        """Proves first, on all processors, the crate on which most others stand, since these wait for it: beside others rt gives it one. What it proves is
        kept on this machine, and the run behind takes it. Where rt wouldn't do so, or has no room to keep anything, nothing is done."""
        under = [below(name, self.lines) for name in self.lines]
        above = {name: sum(name in it for it in under) for name in self.lines}
        lowest = max(above, key=above.get)
        doc = subprocess.run(["rt", "doc"], capture_output=True, text=True).stdout.strip()
        free = os.statvfs(doc if os.path.exists(doc) else "/")
        if os.environ.get("CI") != "true" and free.f_bavail * free.f_frsize > 8e9 and above[lowest] > len(self.lines) // 2:
            self.follow(["rt", "ci", lowest], folder, each)
