"""The blocks of code in the documents, for scripts that run them (try_backends, quiz) or look where they come from (try_names)."""
import collections
import pathlib
import sys

TOP = pathlib.Path(__file__).resolve().parent.parent

# A block's first line in the document, from 1, and its lines without the document's indent.
Block = collections.namedtuple("Block", "line lines")


def blocks_of(document):
    """All blocks: lines that four blanks indent, behind an empty line, but for those of a list's item."""
    lines, at, found = (TOP / document).read_text().splitlines(), 0, []
    while at < len(lines):
        first = at
        if lines[at].startswith("    ") and not lines[at - 1].strip() and not is_of_item(lines, at):
            while at + 1 < len(lines) and (lines[at + 1].startswith("    ") or is_gap(lines, at + 1)):
                at += 1
            found.append(Block(first + 1, [it[4:] for it in lines[first:at + 1]]))
        at += 1
    return found


def is_gap(lines, at):
    """Whether an empty line stands within a block."""
    return not lines[at].strip() and at + 1 < len(lines) and lines[at + 1].startswith("    ")


def is_of_item(lines, at):
    above = next((it for it in reversed(lines[:at]) if it.strip() and not it.startswith(" ")), "")
    return above.startswith("- ")


def block(document, start):
    """The text of the one block that begins so."""
    found = [it for it in blocks_of(document) if it.lines[0].startswith(start)]
    if len(found) != 1:
        sys.exit(f"{document}: {len(found)} blocks begin with {start!r}, not one")
    return "\n".join(found[0].lines) + "\n"


def documented(document, start, places):
    """The text of the one block that begins so, with values in place of what stands there once."""
    text = block(document, start)
    for place, value in places.items():
        if text.count(place) != 1:
            sys.exit(f"{document}: {place!r} stands {text.count(place)} times in the lines of a proxy, not once")
        text = text.replace(place, value)
    return text
