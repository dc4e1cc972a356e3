#!/usr/bin/env python3
"""worst.py [--only WORD] PROGRAM [SECONDS]: looks for the slowest step and the slowest line of all, and for the step that takes most memory.

The candidates, which stand in worst_rows.py, are commands, and lines of sessions that start no script, each with sizes up to the limits: values of 65,536 bytes, 4,096
bindings, 512 windows and so on; with WORD only those in whose names it stands. Of each all sizes grow from a sixty-fourth of the most by twos, until a run takes
SECONDS (2 if no number is given) or a GiB; then each size by itself is halved, as long as that takes longer. A time is that of the processor of the session with
the command or the line (five lines, a fifth each), less that of the same session without, each the least of two; the memory is the peak, less that of the other.

A line of what it prints is the candidate, the sizes of the slowest run, its milliseconds and MiB, the power of the sizes by which the time grew at last, and, where
the sizes were stopped below the most, what this power makes of the time at the most. The last lines name the slowest step, the slowest line and the largest step;
their sessions are written to out/."""
import math, os, pathlib, sys
from timing import timed
from worst_rows import LINES, STEPS

TOP = pathlib.Path(__file__).resolve().parent.parent
LINES_OF_A_RUN, BUDGET, ROUNDS = 5, 10_000_000, 2
# A run of more memory isn't made larger, since other work shares the machine.
MOST_MEMORY = 1 << 30


def session(script, lines):
    head = ["tkhost 2", f"app a 0 0 100 1000 {BUDGET}", "alias total sum 0", "alias shout upper x", f"script {script.count(chr(10)) + 1}", script]
    return "\n".join([*head, "events", "0 focus a", "0 move 50 50", *lines, "9 end", ""]).encode()


class Candidate:
    """A command or a line, whose time is asked by its sizes."""

    def __init__(self, program, row, is_line):
        self.program, self.row, self.is_line, self.known = program, row, is_line, {}

    def text(self, sizes, count):
        """The session of these sizes with the command, or with the lines, or without."""
        before = self.row.before % sizes
        if not self.is_line:
            return session("\n".join([before, "set done 1", *[self.row.what % sizes] * count]), [])
        words = [dict(at=50 + at % 2, far=50 if at % 2 else 500, button=1 + at % 5, who="a" if at % 2 else "-") for at in range(LINES_OF_A_RUN * count)]
        return session(before, ["1 " + self.row.what.format(**one) for one in words])

    def least(self, text):
        """The least time of some runs, the greatest of their peaks of memory, and what the last wrote."""
        runs = [timed([self.program], text) for _ in range(ROUNDS)]
        if any(status for _, _, status, _ in runs) or b"\nerr 0 " in runs[0][3]:
            sys.exit(f"{self.row.name}: ended with {[run[2:] for run in runs]}"[:600])
        return min(run[0] for run in runs), max(run[1] for run in runs)

    def measured(self, sizes):
        """The seconds and bytes of one command or line, and the seconds and the peak of a whole run."""
        key = tuple(sizes.values())
        if key not in self.known:
            (time_without, peak_without), (whole, peak) = (self.least(self.text(sizes, count)) for count in (0, 1))
            time = (whole - time_without) / (LINES_OF_A_RUN if self.is_line else 1)
            self.known[key] = max(time, 1e-6), max(peak - peak_without, 0), whole, peak
        return self.known[key]

    def search(self, seconds):
        """The sizes of the slowest run, and the power by which the time grew at last."""
        part, power, last = 64, 0.0, None
        while True:
            sizes = {name: max(most // part, 1) for name, most in self.row.most.items()}
            time, _, whole, peak = self.measured(sizes)
            if last and last > 0.005:
                power = math.log2(time / last)
            if part == 1 or whole > seconds or peak > MOST_MEMORY:
                break
            part, last = part // 2, time
        # (a size of less may take longer: where it fits a limit that more doesn't)
        for name in self.row.most:
            while sizes[name] > 1:
                smaller = {**sizes, name: sizes[name] // 2}
                if self.measured(smaller)[0] <= 1.1 * self.measured(sizes)[0]:
                    break
                sizes = smaller
        return sizes, part, power

    def told(self, seconds):
        """Prints the candidate's line, and gives the seconds at the most, the bytes of the slowest run, and what it was."""
        sizes, part, power = self.search(seconds)
        time, memory, *_ = self.measured(sizes)
        reckoned = time * part ** max(power, 0)
        more = f", at the most {reckoned:.1f} s by this power" if part > 1 else ""
        of = " ".join(f"{name}={size}" for name, size in sizes.items())
        print(f"{self.row.name} ({of}): {time * 1000:.1f} ms, {memory / 2 ** 20:.0f} MiB, power {power:.2f}{more}", flush=True)
        return reckoned, memory, self, sizes


def main():
    words = sys.argv[1:]
    only = words[1] if words[:1] == ["--only"] and len(words) > 1 else ""
    words = words[2:] if only else words
    if len(words) not in (1, 2) or words[0].startswith("-"):
        sys.exit(__doc__)
    seconds, out = float(words[1]) if len(words) == 2 else 2.0, TOP / "out"
    out.mkdir(exist_ok=True)
    chosen = [(row, is_line) for is_line, every in ((False, STEPS), (True, LINES)) for row in every if only in row.name]
    rows = [Candidate(words[0], row, is_line).told(seconds) for row, is_line in chosen]
    for about, kept, key in (("slowest step", [row for row in rows if not row[2].is_line], 0), ("slowest line", [row for row in rows if row[2].is_line], 0), ("largest step", rows, 1)):
        if kept:
            worst = max(kept, key=lambda row: row[key])
            path = out / f"worst-{about.replace(' ', '-')}.session"
            path.write_bytes(worst[2].text(worst[3], 1))
            print(f"{about}: {worst[2].row.name}, {worst[0]:.3f} s, {worst[1] / 2 ** 20:.0f} MiB: {os.path.relpath(path)}")


if __name__ == "__main__":
    main()
