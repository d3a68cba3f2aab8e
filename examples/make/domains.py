#!/usr/bin/env python3
"""Writes the domain file of each row of domains/rows.txt, and beside it what the program says of it.

    domains.py FOLDER

FOLDER gets NAME.toml of each row, and NAME.line, the line that refuses it, or NAME.out, what `check` prints of it. How a
row is written stands at the head of rows.txt. A row that can't be applied ends the script, so none is passed over.
"""
import os
import re
import sys

# What the lines of a row begin with: an old or a new line of the domain file, the line that refuses it, and an old or a new
# line of what `check` prints.
OLD, NEW, LINE, PRINTED_OLD, PRINTED_NEW = "-+!<>"


def rows(text):
    """Each row: its name, and its lines from the second on, by what they begin with."""
    for paragraph in re.split(r"\n\n+", text.rstrip("\n")):
        lines = [line for line in paragraph.split("\n") if not line.startswith("#")]
        if lines:
            name, colon, _ = lines[0].partition(": ")
            if not colon or not re.fullmatch("[a-z0-9-]+", name):
                sys.exit(f"domains: no name of a row: {lines[0]}")
            # A line that begins with spaces goes on with what the first says.
            yield name, [(line[0], line[2:]) for line in lines[1:] if not line.startswith("    ")]


def changes(name, lines, old, new):
    """The changes of a row: old lines and the new ones that follow them."""
    pairs, last = [], new
    for kind, line in lines:
        if kind == old and last == new:
            pairs.append(([], []))
        if kind in (old, new):
            if not pairs:
                sys.exit(f"domains: {name} begins with a new line")
            pairs[-1][kind == new].append(line)
            last = kind
    return pairs


def changed(name, text, pairs):
    """The text with each change in its turn. The old lines must stand in it once."""
    for old, new in pairs:
        front = "\n" + "".join(line + "\n" for line in old)
        if ("\n" + text).count(front) != 1:
            sys.exit(f"domains: {name}: not there once: {front}")
        text = ("\n" + text).replace(front, "\n" + "".join(line + "\n" for line in new))[1:]
    return text


def bytes_of(text):
    """The text in UTF-8, with the byte itself for two hexadecimal digits in such quotes: «ED»."""
    return re.sub("«([0-9A-F]{2})»".encode(), lambda found: bytes.fromhex(found[1].decode()), text.encode())


def files(here):
    with open(os.path.join(here, "rows.txt"), encoding="utf-8") as table:
        text = table.read()
    with open(os.path.join(here, "base.toml"), encoding="utf-8") as domain:
        base = domain.read()
    with open(os.path.join(here, "base.out"), encoding="utf-8") as out:
        printed = out.read()
    seen = {name.partition(".")[0] for name in os.listdir(here)}
    for name, lines in rows(text):
        kinds = {kind for kind, _ in lines}
        refusals = [line for kind, line in lines if kind == LINE]
        toml = changed(name, base, changes(name, lines, OLD, NEW))
        if name in seen or not kinds <= set(OLD + NEW + LINE + PRINTED_OLD + PRINTED_NEW) or toml == base:
            sys.exit(f"domains: {name} is there twice, has an unknown line, or changes nothing")
        seen.add(name)
        yield name + ".toml", bytes_of(toml)
        if not refusals:
            yield name + ".out", changed(name, printed, changes(name, lines, PRINTED_OLD, PRINTED_NEW)).encode()
        elif len(refusals) == 1 and not kinds & {PRINTED_OLD, PRINTED_NEW}:
            yield name + ".line", (refusals[0] + "\n").encode()
        else:
            sys.exit(f"domains: {name} has two outcomes")


def main(folder):
    here = os.path.join(os.path.dirname(os.path.dirname(os.path.realpath(__file__))), "domains")
    os.makedirs(folder, exist_ok=True)
    for name, bytes_ in files(here):
        with open(os.path.join(folder, name), "wb") as out:
            out.write(bytes_)


if __name__ == "__main__":
    if len(sys.argv) != 2:
        sys.exit(__doc__)
    main(sys.argv[1])
