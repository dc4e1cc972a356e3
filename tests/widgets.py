#!/usr/bin/env python3
"""widgets.py [--try]: widgets answer what the tables tests/widget-tables/*.table say, asked by scripts through the whole program.

A table has the form that the library `tables` tells. A question `new KIND` begins with a new widget and no variables; each `new` is an application
of its own, with the questions up to the next one as its script. They are answered `=` and a result, `!` and an error, or `>` and the script that is run.

- `path WORD|WORD|..` calls the widget's command.
- `set NAME|VALUE`, `unset NAME`, `array set NAME|VALUE` call these commands.
- `value` is what the widget shows, as the tree of the section tells it, and `size` the size that it requests.
- `key TEXT`, `backspace`, `delete`, `move WORD` and `point X` call the commands that keys and the pointer run at an entry, `press Y`, `drag Y`, `step WORD`
  and `space` those at a listbox (they answer 1 where <<ListboxSelect>> came), `down`, `sink` and `up` those at a button.

A word `*N*TEXT` is the text N times. The program is that which the gate left in crates/tkhost_main/out; with --try the sources are run without proof."""
import re, sys
from asking import lines_of
from programs import TOP, played, tried

TABLES = TOP / "tests" / "widget-tables"

# What keys and the pointer run, by the question's first word.
ASKED = {
    "key": "tk::EntryInsert .w %s",
    "backspace": "tk::EntryBackspace .w",
    "delete": "tk::EntryDelete .w",
    "move": "tk::EntryMove .w %s",
    "point": "tk::EntryDown .w %s",
    "press": "set selected 0; tk::ListboxDown .w %s; set selected",
    "drag": "set selected 0; tk::ListboxDrag .w %s; set selected",
    "step": "set selected 0; tk::ListboxMove .w %s; set selected",
    "space": "set selected 0; tk::ListboxSpace .w; set selected",
    # (the relief that it had, unless it is disabled)
    "down": 'set relief [.w cget -relief]; tk::ButtonEnter .w; tk::ButtonDown .w; expr {[.w cget -state] eq "disabled" ? "" : $relief}',
    "sink": "tk::ButtonLeave .w; tk::ButtonEnter .w",
    "up": "tk::ButtonUp .w",
}


def word_of(word):
    """A word of a command: what it means in quotes, with a backslash before each character that would be substituted, and control characters by number."""
    repeated = re.fullmatch(r"\*(\d+)\*(.*)", word, re.S)
    if repeated:
        return "[string repeat %s %s]" % (word_of(repeated[2]), repeated[1])
    return '"%s"' % re.sub(r'[\\"$\[\]{}\x00-\x1f]', lambda m: "\\" + m[0] if m[0] >= " " else "\\u%04x" % ord(m[0]), word)


def command_of(question):
    """The command that asks a question."""
    first, _, rest = question.partition(" ")
    if first == "size":
        return "list [winfo reqwidth .w] [winfo reqheight .w]"
    if first in ASKED:
        return ASKED[first].replace("%s", word_of(rest))
    prefix = {"path": ".w", "array": "array set"}.get(first, first)
    rest = rest.removeprefix("set ") if first == "array" else rest
    return " ".join([prefix, *(word_of(word) for word in (rest.split("|") if rest else []))])


def wanted(answer):
    """An answer as a transcript has it."""
    return "@%d,%s" % (answer[0] == "!", answer[1:].replace("\\", "\\\\").replace("\n", "\\n").replace("\r", "\\r"))


def is_script(answer):
    return answer is not None and answer.startswith(">")


def told_in(section):
    """The answers of a section's transcript, each with the lines that were written before it."""
    written = []
    for line in section.split("\n"):
        if line.startswith("out 0 @"):
            yield written, line[len("out 0 "):]
            written = []
        elif line.startswith(("out ", "err ")):
            written.append(line)


class Application:
    """A new widget of a kind, and what is asked of it: questions with their places in a table and their answers, in turn."""

    def __init__(self, kind, questions, shows=None):
        self.kind, self.questions, self.shows = kind, questions, shows

    def block(self, number):
        """Its lines of a session, as the NUMBERth application."""
        lines = ["%s .w" % self.kind, "bind .w <<ListboxSelect>> {set selected 1}"]
        for _, question, answer in self.questions:
            lines.append("puts @[catch {%s} _],$_" % command_of(question))
            if is_script(answer):
                lines.append("puts @[catch {%s} _],$_" % answer[1:])
        return ["app a%d %d 0 200 100 1000000" % (number, number * 2000), "script %d" % sum(line.count("\n") + 1 for line in lines), *lines]

    def faults(self, section):
        """What the section answers otherwise: where it is asked, the question, and the two answers."""
        told = told_in(section)
        for place, question, answer in self.questions:
            written, got = next(told, ([], "nothing"))
            if is_script(answer):
                # (it writes and answers what the script does by itself)
                alone = next(told, ([], "nothing"))
                if (written, got) != alone:
                    yield place, question, "%s %s" % (written, got), "%s %s" % alone
            elif answer and (got != wanted(answer) or written):
                yield place, question, " ".join([*written, got]), wanted(answer)
        if self.shows:
            place, answer = self.shows
            line = re.search(r"^win \.w \w+(?: \S+){5}(?: (.*))?$", section, re.M)
            got = "no window" if not line else "none" if line[1] is None else line[1]
            if got != wanted(answer)[len("@0,"):]:
                yield place, "value", got, answer[1:]


def applications(table):
    """The applications that ask a table; one more for each `value`, which ends there."""
    kind, asked, last = None, [], None
    for number, line in lines_of(table):
        if line.startswith("?"):
            last = line[1:].removeprefix(" ")
            if last.startswith("new "):
                if kind:
                    yield Application(kind, asked)
                kind, asked = last.removeprefix("new "), []
            elif last != "value":
                asked.append(("%s:%d" % (table.name, number), last, None))
        elif line and not line.startswith("#") and last == "value":
            yield Application(kind, list(asked), ("%s:%d" % (table.name, number), line))
        elif line and not line.startswith("#"):
            asked[-1] = (*asked[-1][:2], line)
    yield Application(kind, asked)


def main():
    everything = [application for table in sorted(TABLES.glob("*.table")) for application in applications(table)]
    groups = [everything[first:first + 16] for first in range(0, len(everything), 16)]
    texts = ["\n".join(["tkhost 1", *(line for number, one in enumerate(group) for line in one.block(number)), "events", "0 end", ""]) for group in groups]
    written = (tried if sys.argv[1:] == ["--try"] else played)(texts)
    answers = sum(1 if one.shows else sum(answer is not None for _, _, answer in one.questions) for one in everything)
    failed = 0
    for group, text in zip(groups, written):
        sections = re.split(r"(?<=\ndone\n)", text)
        for application, section in zip(group, sections + [""] * len(group)):
            for place, question, got, answer in application.faults(section):
                failed += 1
                print("%s: %s: %s and not %s" % (place, question[:200], got[:200], answer[:200]))
    print("%d answers, %d wrong" % (answers, failed))
    return 1 if failed else 0


if __name__ == "__main__":
    sys.exit(main())
