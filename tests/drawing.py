#!/usr/bin/env python3
"""drawing.py [--above CRATE]: sees that the drawing of the layers in docs/architecture.md, and the table of crates below it, are those of crates.txt. --help prints this.

The drawing is the block of the kind `layers`. A line `NUMBER NAME: CRATES` begins a layer, the highest first, one without a colon goes on with it, and
those before the first are headings. Each crate of crates.txt has to stand in it once, and nothing else, in a layer above all crates that it stands on.

Of the table each crate of crates.txt has to have one row, whose last cell names those that it stands on, but for those that one of them stands on; `-`
is none. Exit status 1 where anything differs.

--above lists the crates that stand on CRATE, lowest first: those that are proved again when it changes."""
import pathlib, re, sys

TOP = pathlib.Path(__file__).resolve().parent.parent
PAGE = TOP / "docs" / "architecture.md"


def crates():
    """The crates of crates.txt, each with the crates of this tree that its line names."""
    lines = [line.partition("#")[0].partition(":") for line in (TOP / "crates.txt").read_text().splitlines()]
    named = {name.split()[0]: deps.split() for name, colon, deps in lines if colon}
    return {name: [dep for dep in deps if dep in named] for name, deps in named.items()}


def all_below(name, below):
    """Every crate that a crate stands on, in one step or more."""
    return set(below[name]).union(*(all_below(dep, below) for dep in below[name]))


def layers(text):
    """The layers of the drawing by their numbers, each with the crates that stand in it, in order."""
    found, number = {}, None
    for line in text.splitlines():
        begins = re.match(r" *(\d+)[^:]*:", line)
        if begins:
            number, line = int(begins[1]), line[begins.end():]
        if number is not None:
            found.setdefault(number, []).extend(line.split())
    return found


def faults_of_drawing(drawing, below):
    """What of a drawing isn't so by crates.txt."""
    stands = [(name, number) for number, names in layers(drawing).items() for name in names]
    place = dict(stands)
    names = [name for name, _ in stands]
    yield from (f"{name} stands in the drawing {names.count(name)} times" for name in below if names.count(name) != 1)
    yield from (f"{name} stands in the drawing, and is no crate" for name in names if name not in below)
    for name, deps in below.items():
        wrong = [dep for dep in deps if name in place and dep in place and not place[dep] < place[name]]
        yield from (f"{name} stands on {dep}, and isn't drawn above it" for dep in wrong)
    numbers = list(layers(drawing))
    if numbers != list(range(len(numbers), 0, -1)):
        yield f"the layers aren't numbered from the highest down to 1: {numbers}"


def faults_of_table(text, below):
    """What of the table of crates isn't so by crates.txt."""
    rows = re.findall(r"^\| \[(\w+)\]\([^)]*\) \|.*\| ([^|]*) \|$", text, re.M)
    names = [name for name, _ in rows]
    yield from (f"{name} has {names.count(name)} rows in the table" for name in below if names.count(name) != 1)
    for name, cell in rows:
        if name not in below:
            yield f"{name} has a row, and is no crate"
            continue
        over = set().union(*(all_below(dep, below) for dep in below[name]))
        wanted = [dep for dep in below[name] if dep not in over]
        if re.findall(r"\w+", cell) != wanted:
            yield f"{name} stands on {', '.join(wanted) or '-'}, and its row says {cell}"


def main():
    text, below, words = PAGE.read_text(), crates(), sys.argv[1:]
    if words == ["--help"]:
        sys.exit(print(__doc__))
    if len(words) == 2 and words[0] == "--above" and words[1] in below:
        return print(*(name for name in below if words[1] in all_below(name, below)), sep="\n")
    if words:
        sys.exit(__doc__)
    drawing = re.search(r"^```layers\n(.*?)^```", text, re.M | re.S)
    table = text.partition("\n## The crates\n")[2].split("\n## ")[0]
    faults = list(faults_of_drawing(drawing[1], below)) if drawing else ["there is no drawing"]
    faults += faults_of_table(table, below)
    print("".join(f"{fault}\n" for fault in faults), end="")
    print(f"drawing: {len(below)} crates, {len(faults)} faults")
    return 1 if faults else 0


if __name__ == "__main__":
    sys.exit(main())
