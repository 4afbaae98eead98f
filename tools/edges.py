#!/usr/bin/env python3
"""edges.py: calls of the two builders at every boundary of their arguments and buffers, as lines in the words of the recorded vectors
(cut_diagrams.py takes them). The numbers of refusals are written down by hand from the paper; what an accepted call answers is
computed by reference.py, which follows the paper's steps and not the code that is tested."""
from random import Random

from boundaries import among, plan_file, sum_rule
from reference import relaxed, restricted

LIMIT = 2000000
lines = []


def needs(file, width):
    n, m = file[5], file[6]
    return 8 * n * width, (n + 1) * width * (4 * m + 3), n


def line(left, file, found, exact, need, bytes_, cells, plan=None):
    words = [f"0 {int(found is not None)},{found or 0},{int(exact)}", bytes_[: need[0]].hex(), ",".join(map(str, cells[: need[1]]))]
    lines.append(" ".join([*left, file.hex() or "-", "=", *words, *([] if plan is None else [plan.hex() or "-"])]))


def relax(name, file, width, rounds=64, ceiling=LIMIT, longer=(0, 0), refused=None):
    sizes = [a + b for a, b in zip(needs(file, width if width < 17 else 1), longer)] if len(file) > 6 else longer
    left = ["relaxed", "edge_" + name, *map(str, (width, rounds, ceiling, *sizes[:2]))]
    if refused:
        lines.append(" ".join([*left, file.hex() or "-", "=", str(refused), "unchanged"]))
        return
    bytes_, cells, found, exact = relaxed(file, width, rounds, ceiling, sizes)
    line(left, file, found, exact, needs(file, width), bytes_, cells)


def restrict(name, file, width, longer=(0, 0, 0), refused=None):
    sizes = [a + b for a, b in zip(needs(file, width if width < 17 else 1), longer)] if len(file) > 6 else longer
    left = ["restricted", "edge_" + name, *map(str, (width, *sizes))]
    if refused:
        lines.append(" ".join([*left, file.hex() or "-", "=", str(refused), "unchanged"]))
        return
    bytes_, cells, found, exact, plan = restricted(file, width, sizes)
    line(left, file, found, exact, needs(file, width), bytes_, cells, plan)


B = plan_file([3] * 4, [-1] * 4, among(2, 15, 1, 2))
C = plan_file([3] * 4, [2, -3, 4, 6], sum_rule([2, 3, 5, 5], 7, 15))
ONE = plan_file([8], [10000])
EMPTY = plan_file([3] * 3, [1, 2, 3], among(2, 7, 4, 5))
TIES = plan_file([255] * 5, [0] * 5, sum_rule([1] * 5, 9, 9))

# cases B and C at their widths; buffers of the need, and longer ones, which are zero behind it
for width in (1, 2, 3, 16):
    relax(f"B_{width}", B, width)
    restrict(f"B_{width}", B, width)
    relax(f"C_{width}", C, width, longer=(9, 7))
    restrict(f"C_{width}", C, width, longer=(9, 7, 5))
# one slot: a plan that costs the ceiling stays; without rounds the ceiling plays no part
for ceiling in (29999, 30000, 30001):
    for rounds in (0, 1, 64):
        relax(f"one_{ceiling}_{rounds}", ONE, 1, rounds, ceiling)
restrict("one", ONE, 1)
restrict("one_16", ONE, 16)
# 8: width, rounds, ceiling
for width in (0, 17, 18, 256, 65537, 2**32 - 1):
    relax(f"width_{width}", C, width, longer=(4000, 4000), refused=8)
    restrict(f"width_{width}", C, width, longer=(4000, 4000, 9), refused=8)
for rounds in (65, 66, 2**32 - 1):
    relax(f"rounds_{rounds}", C, 2, rounds, refused=8)
for ceiling in (LIMIT + 1, -LIMIT - 1, 2**31 - 1, -(2**31)):
    relax(f"ceiling_{ceiling}", C, 2, 1, ceiling, refused=8)
for ceiling in (LIMIT, -LIMIT, 0, 1, 2):
    for rounds in (0, 1, 2, 63, 64):
        relax(f"ceiling_{ceiling}_{rounds}", C, 2, rounds, ceiling)
# 11: one less than the need; 8 stands before it, and the file before both
for short in ((-1, 0), (0, -1), (-1, -1)):
    relax(f"short_{short[0]}_{short[1]}", B, 3, longer=short, refused=11)
    restrict(f"short_{short[0]}_{short[1]}", B, 3, longer=(*short, 0), refused=11)
restrict("short_plan", B, 3, longer=(0, 0, -1), refused=11)
restrict("no_plan", B, 3, longer=(5, 5, -4), refused=11)
relax("width_before_buffer", B, 17, longer=(-32, -35), refused=8)
restrict("width_before_buffer", B, 0, longer=(0, 0, -4), refused=8)
relax("file_before_width", B[:-1], 17, longer=(3, 3), refused=1)
restrict("file_before_width", B + b"\0", 0, longer=(3, 3, 3), refused=7)
relax("no_file", b"", 1, longer=(8, 6), refused=1)
restrict("no_file", b"", 1, longer=(8, 6, 1), refused=1)
# no lawful plan; plans of equal cost, of which the first in dictionary order is shown
for width in (1, 2, 4):
    relax(f"none_{width}", EMPTY, width, longer=(1, 1))
    restrict(f"none_{width}", EMPTY, width, longer=(1, 1, 2))
    restrict(f"ties_{width}", TIES, width)
# files of any kind
random = Random(20261115)
for k in range(40):
    n, m = random.randint(1, 7), random.randint(0, 4)
    rules = []
    for _ in range(m):
        if random.random() < 0.5:
            low = random.randint(0, 2)
            rules.append(among(random.randrange(256), random.randrange(2**n), low, low + random.randint(0, 2)))
        else:
            coefs = [random.randint(-9, 9) for _ in range(n)]
            low = sum(c * random.randint(0, 7) for c in coefs)
            rules.append(sum_rule(coefs, low - random.randint(0, 9), low + random.randint(0, 9)))
    file = plan_file([random.randrange(1, 256) for _ in range(n)], [random.randint(-50, 50) for _ in range(n)], *rules)
    width = random.choice((1, 2, 3, 5, 8))
    relax(f"any_{k}", file, width, random.choice((0, 1, 2, 3, 64)), random.choice((LIMIT, 200, 50, 0, -50)))
    restrict(f"any_{k}", file, width)
# the longest file at the greatest width
MOST = plan_file([255] * 24, [(-1) ** i * 10000 for i in range(24)], *[sum_rule([(i * k) % 7 * 100 - 300 for i in range(24)], -5000, 5000) for k in range(1, 9)])
relax("most", MOST, 16, 64, 100000)
restrict("most", MOST, 16)
