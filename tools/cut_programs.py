#!/usr/bin/env python3
"""cut_programs.py FOLDER: run from the repository. Copies every recorded plan file of FOLDER but the empty one into crates/programs:
data/ (the files), args (their names) and stdout (a line with the name before what is recorded for it); and what is recorded for the
empty one to crates/planner/stdout."""
import os
import shutil
import sys

CRATE = os.path.join("crates", "programs")
EMPTY = "empty"

if len(sys.argv) != 2:
    sys.exit(__doc__)
folder = sys.argv[1]
names = sorted(name[: -len(".rtp")] for name in os.listdir(folder) if name.endswith(".rtp"))
assert EMPTY in names and len(names) <= 1000, "more files than the program reports"
shutil.copyfile(os.path.join(folder, EMPTY + ".out"), os.path.join("crates", "planner", "stdout"))
names.remove(EMPTY)
shutil.rmtree(os.path.join(CRATE, "data"), ignore_errors=True)
os.makedirs(os.path.join(CRATE, "data"))
for name in names:
    shutil.copyfile(os.path.join(folder, name + ".rtp"), os.path.join(CRATE, "data", name + ".rtp"))
with open(os.path.join(CRATE, "args"), "w") as out:
    out.writelines(f"{name}.rtp\n" for name in names)
with open(os.path.join(CRATE, "stdout"), "w") as out:
    for name in names:
        with open(os.path.join(folder, name + ".out")) as recorded:
            out.write(f"file {name}.rtp\n{recorded.read()}")
print(len(names), "recorded files, and the empty one")
