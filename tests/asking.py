"""What the tests share that ask the questions of tables: a table's lines, with control characters in place of the pictures that stand for them."""
import re


def lines_of(table):
    """The lines of a table, each with its number."""
    for number, line in enumerate(table.read_text().split("\n"), 1):
        yield number, re.sub("[\u2400-\u241f]", lambda m: chr(ord(m[0]) - 0x2400), line)
