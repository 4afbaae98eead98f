#!/usr/bin/env python3
"""cut_vectors.py CALLS: run from the repository. Cuts every read, judge and better line of CALLS (the recorded vectors), and then
every line of boundaries.py, into crates/calls: data/ (equal files once), args (five words a call) and stdout (a line a call)."""
import os
import shutil
import sys

from boundaries import lines

CRATE = os.path.join("crates", "calls")
stored = {b"": "none"}


def store(digits, label):
    """The name in data/ of these bytes, given in hexadecimal. A plan is named by its steps, a file by its first call."""
    data = bytes.fromhex(digits.replace("-", ""))
    assert len(data) < 600, "longer than the program reads"
    return stored.setdefault(data, label or "plan_" + digits)


def words(line):
    """The five words of a call, and the line that is printed for it."""
    left, answer = line.rstrip("\n").split(" = ")
    operation, name, *plans, file = left.split(" ")
    first = store(file, operation + "_" + name)
    return [operation, name, first, *(store(p, "") for p in plans), "none", "none"][:5], f"{operation} {name} = {answer}"


if len(sys.argv) != 2:
    sys.exit(__doc__)
with open(sys.argv[1]) as calls:
    recorded = [line for line in calls if line.split(" ")[0] in ("read", "judge", "better")]
cut = [words(line) for line in recorded + lines]
assert len(set(stored.values())) == len(stored), "two files of one name"
assert len(cut) <= 1000, "more calls than the program runs"
shutil.rmtree(os.path.join(CRATE, "data"), ignore_errors=True)
os.makedirs(os.path.join(CRATE, "data"))
for data, name in stored.items():
    with open(os.path.join(CRATE, "data", name), "wb") as out:
        out.write(data)
with open(os.path.join(CRATE, "args"), "w") as out:
    out.writelines(word + "\n" for five, _ in cut for word in five)
with open(os.path.join(CRATE, "stdout"), "w") as out:
    out.writelines(line + "\n" for _, line in cut)
print(len(recorded), "recorded calls,", len(lines), "boundaries,", len(stored), "files")
