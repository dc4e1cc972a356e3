#!/usr/bin/env python3
"""commands.py [--try] [WORD ..]: Tk's commands answer what the table tests/commands.table says, whose head tells its form.

The program is that which the gate left in crates/tkhost_main/out; with --try the sources are run without proof, by `rt try`. Each script is an
application of its own. Those without lines of a session are played sixteen a session, side by side; each of the others has a session. With words,
only the scripts are asked in which one of them stands. What a script writes in place of what the table says is told, script by script."""
import re, sys
from programs import TOP, played, tried

TABLE = TOP / "tests" / "commands.table"
TOLD = re.compile(r"[=!234](?: |$)|(?:out|err|win|timer|idle|state) ")
CODES = "=!234"


class Script:
    """An entry of the table."""

    def __init__(self, line, lines):
        self.line, self.size, self.aliases, self.commands, self.events, self.told = line, "200 100 10000", [], [], [], []
        for text in lines:
            kind, _, rest = text.partition(" ")
            if kind == "size":
                self.size = rest
            elif kind == "alias":
                self.aliases.append(text)
            elif kind == "%":
                self.commands.append(rest)
            elif kind == "+":
                self.events.append(rest)
            elif TOLD.match(text):
                self.told.append(text)
            else:
                sys.exit("commands.table:%d: no such line: %s" % (line, text))

    def block(self, number):
        """The application's lines of a session, as its NUMBERth application."""
        width, height, budget = self.size.split()
        script = ["puts @[catch {%s} _],$_" % command for command in self.commands]
        return ["app a%d %d 0 %s %s %s" % (number, number * 2000, width, height, budget), *self.aliases, "script %d" % len(script), *script]

    def shown(self, section):
        """What a section says, in the table's form: all that is written, and as much of the rest as the table has."""
        lines, asked = section.split("\n"), {text.split(" ")[0] for text in self.told}
        found = [re.sub(r"^out \d+ @([0-4]),(?=(.?))", lambda m: CODES[int(m[1])] + (m[2] and " "), text)
                 for text in lines[1:] if text.startswith(("out ", "err "))]
        if "state" in asked:
            found.append("state " + lines[0].split(" ", 2)[2])
        if "win" in asked:
            found += [text for text in lines if text.startswith("win ")]
        if asked & {"timer", "idle"}:
            found += [text for text in lines if text.startswith(("timer ", "idle "))]
        return found


def table():
    """The entries of the table."""
    lines, first = [], 0
    for number, text in enumerate(TABLE.read_text().split("\n") + [""], 1):
        if text and not text.startswith("#"):
            first = first if lines else number
            lines.append(text)
        elif not text and lines:
            yield Script(first, lines)
            lines = []


def sessions(scripts):
    """The sessions that play the scripts, each with its scripts in order."""
    quiet = [script for script in scripts if not script.events]
    groups = [quiet[first:first + 16] for first in range(0, len(quiet), 16)] + [[script] for script in scripts if script.events]
    for group in groups:
        blocks = [line for number, script in enumerate(group) for line in script.block(number)]
        events = group[0].events or ["0 end"]
        yield group, "\n".join(["tkhost 1", *blocks, "events", *events, ""])


def main():
    words = sys.argv[1:]
    tries = words[:1] == ["--try"]
    scripts = [s for s in table() if not words[tries:] or any(word in command for word in words[tries:] for command in s.commands)]
    groups, texts = zip(*sessions(scripts))
    failed = 0
    for group, written in zip(groups, (tried if tries else played)(texts)):
        sections = re.split(r"(?<=\ndone\n)", written)
        for script, section in zip(group, sections + [""] * len(group)):
            shown = script.shown(section) if section else ["no section"]
            if shown != script.told:
                failed += 1
                at = next((i for i, pair in enumerate(zip(shown, script.told)) if pair[0] != pair[1]), min(len(shown), len(script.told)))
                print("commands.table:%d: %s\n  wanted: %s\n  got:    %s" % (
                    script.line, "; ".join(script.commands), *[side[at] if at < len(side) else "nothing" for side in (script.told, shown)]))
    print("%d passed, %d failed" % (len(scripts) - failed, failed))
    return 1 if failed else 0


if __name__ == "__main__":
    sys.exit(main())
