#!/usr/bin/env python3
"""cut_diagrams.py CALLS: run from the repository. Cuts every relaxed, restricted, page and walk line of CALLS (the recorded vectors), and
then every line of edges.py, into crates/diagrams: data/ (a file for each call), args (three words a call) and stdout (a line a call)."""
import os
import shutil
import sys
from struct import pack

from edges import lines

CRATE = os.path.join("crates", "diagrams")


def bytes_of(word):
    return bytes.fromhex(word.replace("-", ""))


def cut(line):
    """The three words of a call, the bytes of its file, and the line that is printed for it."""
    left, answer = line.rstrip("\n").split(" = ")
    operation, name, *words, file = left.split(" ")
    file = bytes_of(file)
    rounds = ceiling = length = 0
    start = given = b""
    if operation == "relaxed":
        width, rounds, ceiling, arcs, cells = words
    elif operation == "restricted":
        width, arcs, cells, length = words
    elif operation == "page":
        width, rounds, ceiling, start, arcs, cells, length = words
        start = bytes_of(start)
    else:
        width, ceiling, start, given, length = words
        start, given = bytes_of(start), bytes_of(given)
        arcs, cells = len(given), (file[5] + 1) * int(width) * (4 * file[6] + 3)
    numbers = map(int, (width, rounds, ceiling, arcs, cells, length, len(start), len(given)))
    data = pack("<IIiIIIII", *numbers) + start + given + file
    return [operation, name, operation + "_" + name], data, f"{operation} {name} = {answer}"


if len(sys.argv) != 2:
    sys.exit(__doc__)
with open(sys.argv[1]) as calls:
    recorded = [line for line in calls if line.split(" ")[0] in ("relaxed", "restricted", "page", "walk")]
calls = [cut(line) for line in recorded + lines]
assert len({words[2] for words, _, _ in calls}) == len(calls), "two calls of one name"
assert len(calls) <= 1000, "more calls than the program runs"
shutil.rmtree(os.path.join(CRATE, "data"), ignore_errors=True)
os.makedirs(os.path.join(CRATE, "data"))
for words, data, _ in calls:
    with open(os.path.join(CRATE, "data", words[2]), "wb") as out:
        out.write(data)
with open(os.path.join(CRATE, "args"), "w") as out:
    out.writelines(word + "\n" for words, _, _ in calls for word in words)
with open(os.path.join(CRATE, "stdout"), "w") as out:
    out.writelines(line + "\n" for _, _, line in calls)
print(len(recorded), "recorded calls,", len(lines), "edges")
