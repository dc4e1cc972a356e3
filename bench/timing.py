"""What the benches share: a run's processor time and memory, applications in a session, and wish 8.6 under a virtual display."""
import os, pathlib, shutil, subprocess, sys, tempfile

ROUNDS, COLUMNS = 3, 4


def timed(words, text, environment=None):
    """The processor time of a run in seconds, its peak of memory in bytes, its exit status, and what it wrote.

    The peak is at least that of this program, which therefore keeps no large texts: `text` is either bytes or the path of a file."""
    with tempfile.TemporaryFile() as written:
        with open(text, "rb") if isinstance(text, pathlib.Path) else tempfile.TemporaryFile() as given:
            if not isinstance(text, pathlib.Path):
                given.write(text)
            given.seek(0)
            process = subprocess.Popen(words, stdin=given, stdout=written, stderr=subprocess.STDOUT, env=environment)
        _, status, usage = os.wait4(process.pid, 0)
        process.returncode = os.waitstatus_to_exitcode(status)
        written.seek(0)
        return usage.ru_utime + usage.ru_stime, usage.ru_maxrss * 1024, process.returncode, written.read()


def well(words, text=b""):
    """The processor time of a run that has to end with status 0, and what it wrote."""
    time, _, status, written = timed(words, text)
    if status:
        sys.exit("%s ended with status %d: %s" % (words[0], status, written[-500:].decode(errors="replace")))
    return time, written


def least(run):
    """The least time of some runs, and what the first wrote."""
    rounds = [run() for _ in range(ROUNDS)]
    return min(time for time, *_ in rounds), rounds[0][-1]


def corner(number, size):
    """Where an application lies: four stand in a row."""
    return number % COLUMNS * size[0], number // COLUMNS * size[1]


def session(count, size, script, lines=(), end=0):
    """A session of applications of one size and one script."""
    head = ["tkhost 1"]
    for number in range(count):
        head += ["app p%d %d %d %d %d 10000000" % (number, *corner(number, size), *size), "script %d" % (script.count("\n") + 1), script]
    return "\n".join([*head, "events", *lines, "%d end" % end, ""]).encode()


def printed(sections, count):
    """What applications printed, line for line; the sections themselves where another line is told, or where one doesn't run on."""
    lines = sections.split(b"\n")
    ended = [line for line in lines if line.startswith(b"app ")]
    if len(ended) != count or any(b" running " not in line for line in ended) or any(line.startswith(b"err ") for line in lines):
        return sections
    return b"".join(line.split(b" ", 2)[2] + b"\n" for line in lines if line.startswith(b"out "))


class Wish:
    """wish 8.6 under a virtual display of its own, where both are at hand; the processor time of the display isn't counted."""

    def __init__(self):
        self.server, self.environment = None, None

    def __enter__(self):
        if not shutil.which("wish") or not shutil.which("Xvfb"):
            print("wish 8.6 and Xvfb (apt-get install tk xvfb) aren't at hand: the host alone is timed")
            return self
        told, given = os.pipe()
        self.server = subprocess.Popen(["Xvfb", "-displayfd", str(given), "-screen", "0", "1280x1024x24"], pass_fds=[given], stdout=subprocess.DEVNULL, stderr=subprocess.DEVNULL)
        os.close(given)
        with os.fdopen(told) as number:
            self.environment = {**os.environ, "DISPLAY": ":" + number.readline().strip()}
        return self

    def __exit__(self, *_):
        if self.server:
            self.server.terminate()
            self.server.wait()

    def timed(self, count, size, script):
        """A run of the script in applications of one wish, one after the other; nothing where there is no wish."""
        if not self.server:
            return None
        lines = ["wm withdraw ."]
        for number in range(count):
            lines += ["interp create p%d" % number, "load {} Tk p%d" % number, "p%d eval {wm geometry . %dx%d; pack propagate . 0; update}" % (number, *size)]
        with tempfile.TemporaryDirectory() as folder:
            own, all_of_them = pathlib.Path(folder, "own.tcl"), pathlib.Path(folder, "all.tcl")
            own.write_text(script)
            all_of_them.write_text("\n".join([*lines, *("p%d eval {focus -force .; update; source {%s}}" % (number, own) for number in range(count)), "exit", ""]))
            return timed(["wish", str(all_of_them)], b"", self.environment)


def beside(host, wish):
    """What is told of two times: both, and their ratio, where there is a second."""
    return "host %8.2f" % host + ("  wish %8.2f  ratio %5.2f" % (wish, host / wish) if wish is not None else "")
