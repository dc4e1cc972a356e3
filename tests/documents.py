#!/usr/bin/env python3
"""documents.py [--try] [PAGE ..]: sees that the documents say what is so. Without a PAGE, README.md, CHANGELOG.md, SECURITY.md and each page of docs/ is read; --help
prints this.

What is tested of a page: each link has to lead to a file of the repository, and to a heading where it names one; where the page says `NAME` in
[FILE](PATH), that file has to define NAME; and each example has to answer what the page says. What else a page says is not. Without a PAGE the links
of the crates' README.md are followed too, and each command that has a heading in docs/tcl.md or docs/tk.md has to stand in the index of its page, in the
tables of docs/architecture.md and README.md, and in an example of its own section, where no other command may stand; and in the table by command of
docs/costs.md. The README.md of tests/ and of bench/ has to lead to each file of its folder.

The program is that which the gate left in crates/tkhost_main/out; with --try the sources are run without proof, by `rt try`. Four kinds of blocks are
examples:

- `tcl`: commands behind `% `, and below each what it answers or writes. They run in turn in an application of their own; what a timer writes
  stands at the end.
- `session`, and the block `section` behind it: a session, and all that the program writes, on standard output or on standard error.
- `rust`: stands so in a file of crates/embedding/src; the block `output` behind one is what its function answers, by the table of test_host:
  the first such block of a page by the first answer, and so on.

Any other block is none."""
import os, pathlib, re, sys
from programs import CRATES, EMBEDDING, TABLES_OF_HOSTS, TOP, played, tried

EMBEDDED = CRATES / TABLES_OF_HOSTS / "data" / "embedding.table"
PAGES_OF_COMMANDS = [TOP / "docs" / page for page in ("tcl.md", "tk.md")]


def blocks(page):
    """The fenced blocks of a page: the line of each, its kind and its text."""
    kind, text = None, []
    for number, line in enumerate(page.read_text().splitlines(), 1):
        if line.startswith("```"):
            if kind is None:
                kind, text, begin = line[3:].strip(), [], number
            else:
                yield begin, kind, "".join(l + "\n" for l in text)
                kind = None
        elif kind is not None:
            text.append(line)


def is_whole(command):
    """Whether the braces of a command match, those behind backslashes aside."""
    bare = re.sub(r"\\.", "", command)
    return bare.count("{") == bare.count("}")


def dialogue(text):
    """The commands of a dialogue, and what it says that they answer and write."""
    commands, said, open_command = [], [], False
    for line in text.splitlines():
        if open_command:
            commands[-1] += "\n" + line
        elif line.startswith("% "):
            commands.append(line[2:])
        else:
            said.append(line)
        open_command = bool(commands) and not is_whole(commands[-1])
    return commands, said


def session_of(commands):
    """A session that runs commands in turn and writes what each answers."""
    script = "\n".join("catch {%s} _; if {$_ ne {}} {puts $_}" % command for command in commands)
    return "tkhost 1\napp a 0 0 100 50 10000\nscript %d\n%s\nevents\n1000000 end\n" % (script.count("\n") + 1, script)


def shown_in(section):
    """What an application has written, as lines."""
    told = [line.split(" ", 2)[2] for line in section.splitlines() if line.startswith(("out ", "err "))]
    plain = [re.sub(r"\\(.)", lambda m: {"n": "\n", "r": "\r"}.get(m[1], m[1]), text) for text in told]
    return "\n".join(plain).split("\n") if plain else []


def examples(page):
    """The examples of a page: the line of each, its session if it has one, and what makes of the answer what was got and what is wanted."""
    found, answers = list(blocks(page)), iter(re.findall(r"^=(.*)", EMBEDDED.read_text(), re.M))
    for (number, kind, text), (next_number, next_kind, next_text) in zip(found, found[1:] + [(0, None, "")]):
        if kind == "tcl":
            commands, said = dialogue(text)
            yield number, session_of(commands), lambda answer, said=said: (shown_in(answer), said)
        elif kind == "session":
            if next_kind != "section":
                sys.exit(f"{page.name}:{number}: a session without its section")
            yield number, text, lambda answer, wanted=next_text: (answer.splitlines(), wanted.splitlines())
        elif kind == "rust":
            sources = [it.read_text() for it in sorted((CRATES / EMBEDDING / "src").glob("*.rt"))]
            yield number, None, lambda _, text=text, sources=sources: (any(text in it for it in sources), True)
            if next_kind == "output":
                printed = next(answers, "").replace("␊", "\n")
                yield next_number, None, lambda _, wanted=next_text, printed=printed: (printed.splitlines(), wanted.splitlines())


def prose(page):
    """The text of a page without its fenced blocks."""
    return re.sub(r"^```.*?^```", "", page.read_text(), flags=re.M | re.S)


def anchors(page):
    """What links call the headings of a page."""
    return {re.sub(r"[^\w\- ]", "", heading.strip().lower()).replace(" ", "-") for heading in re.findall(r"^#+ (.*)$", prose(page), re.M)}


def lost_links(page):
    """The links of a page that lead nowhere, and the names that aren't defined where it says."""
    text, shown = prose(page), os.path.relpath(page, TOP)
    for path, anchor in re.findall(r"\]\(([^)#:]*)(?:#([^)]*))?\)", text):
        target = page.parent / path if path else page
        if not target.exists() or anchor and anchor not in anchors(target):
            yield f"{shown}: nothing is at {path}#{anchor}"
    for name, path in re.findall(r"`(\w+)` in \[[^\]]*\]\(([^)]*)\)", text):
        form = r"^\s*(abbrev|unfoldable)( pub)? %s :" if path.endswith(".antt") else r"\bfn %s\b"
        if (page.parent / path).exists() and not re.search(form % name, (page.parent / path).read_text(), re.M):
            yield f"{shown}: {name} isn't defined in {path}"


def part(page, heading):
    """What stands below a heading of the second level, nothing where there is none."""
    return page.read_text().partition(f"\n## {heading}\n")[2].split("\n## ")[0]


def in_first_cells(text):
    """The commands that the first cells of tables name."""
    cells = re.findall(r"^\| (.*?) \|", text, re.M)
    return {name for cell in cells for name in re.findall(r"`([a-z]+)[ `]", cell)} - {"path"}


def lost_commands():
    """The commands that lack their place in one of the documents, or an example of their own."""
    architecture, readme, page_of, section_of = TOP / "docs" / "architecture.md", TOP / "README.md", {}, {}
    for page in PAGES_OF_COMMANDS:
        sections = [section.split("\n## ")[0] for section in page.read_text().split("\n### ")[1:]]
        found = {name: section for section in sections for name in re.findall(r"`([a-z]+)`", section.split("\n")[0])}
        section_of.update(found)
        page_of.update((name, os.path.relpath(page, TOP)) for name in found)
        indexed = in_first_cells(part(page, "Index of commands"))
        yield from (f"{name} has a heading in {page_of[name]}, and isn't in its index" for name in sorted(found.keys() - indexed))
        yield from (f"{name} is in the index of {os.path.relpath(page, TOP)}, and has no heading there" for name in sorted(indexed - found.keys()))
    for place, names in {
        "the tables of docs/architecture.md": in_first_cells(part(architecture, "Where each command is")),
        "the table of README.md": set(re.findall(r"\[`([a-z]+)`\]", part(readme, "What a script can use"))),
    }.items():
        yield from (f"{name} has a heading in {page_of[name]}, and isn't in {place}" for name in sorted(section_of.keys() - names))
        yield from (f"{name} is in {place}, and has no heading in docs/tcl.md or docs/tk.md" for name in sorted(names - section_of.keys()))
    costs = in_first_cells((TOP / "docs" / "costs.md").read_text().partition("\n### By command\n")[2].split("\n### ")[0])
    yield from (f"{name} has a heading in {page_of[name]}, and isn't in the table by command of docs/costs.md" for name in sorted(section_of.keys() - costs))
    for name, section in section_of.items():
        shown = "".join(re.findall(r"^```(?:tcl|session)\n(.*?)^```", section, re.M | re.S))
        if not re.search(r"(?<![^\s{[;])%s(?![^\s}\];])" % name, shown):
            yield f"{name} is in no example of its section of {page_of[name]}"


def unlisted():
    """The files of a folder to which its README.md doesn't lead."""
    for folder in (TOP / "tests", TOP / "bench"):
        page = folder / "README.md"
        listed = re.findall(r"\]\(([^)#:]*)\)", prose(page)) if page.exists() else []
        for file in sorted(folder.iterdir()):
            if file.name not in ("README.md", "__pycache__") and file.name not in listed:
                yield f"{os.path.relpath(file, TOP)} isn't listed in {os.path.relpath(page, TOP)}"


def main():
    words = sys.argv[1:]
    tries = words[:1] == ["--try"]
    if words == ["--help"]:
        sys.exit(print(__doc__))
    if any(word.startswith("-") for word in words[tries:]):
        sys.exit(__doc__)
    pages, linked, misplaced = [pathlib.Path(page) for page in words[tries:]], [], []
    if not pages:
        pages, linked = [TOP / "README.md", TOP / "CHANGELOG.md", TOP / "SECURITY.md", *sorted((TOP / "docs").glob("*.md"))], sorted(CRATES.glob("*/README.md"))
        linked += [TOP / folder / "README.md" for folder in ("bench", "examples", "tests")]
        misplaced = [*lost_commands(), *unlisted()]
    lost = [fault for page in pages + linked for fault in lost_links(page)]
    print("".join(f"{fault}\n" for fault in lost + misplaced), end="")
    found = {f"{page.stem}-{number}": (session, compared) for page in pages for number, session, compared in examples(page)}
    sessions = {name: session for name, (session, _) in found.items() if session is not None}
    answers = dict(zip(sessions, (tried if tries else played)(list(sessions.values()))))
    failed = 0
    for name, (_, compared) in found.items():
        got, wanted = compared(answers.get(name))
        if got != wanted:
            failed += 1
            print(f"{name}: answers {got}, and the page says {wanted}")
    print(f"documents: {len(found) - failed} examples passed, {failed} failed, {len(lost)} links lead nowhere, {len(misplaced)} commands or files lack a place")
    return 1 if failed or lost or misplaced else 0


if __name__ == "__main__":
    sys.exit(main())
