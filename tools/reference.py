"""The two builders of the paper (01-scope), step by step and as slowly as it reads: answers to hold the program against."""


def problem(file):
    """An accepted file's sets, weights and rules; a rule is (share of slot and step, lb, ub)."""
    number = lambda at, size: int.from_bytes(file[at : at + size], "little", signed=True)
    n, m, at = file[5], file[6], 7 + 5 * file[5]
    sets = [[v for v in range(8) if file[7 + i] >> v & 1] for i in range(n)]
    weights = [number(7 + n + 4 * i, 4) for i in range(n)]
    rules = []
    for _ in range(m):
        if file[at] == 1:
            values, slots, end = file[at + 1], int.from_bytes(file[at + 2 : at + 6], "little"), at + 6
            share = lambda i, v, s=values, t=slots: s >> v & t >> i & 1
        else:
            coefs, end = [number(at + 1 + 2 * i, 2) for i in range(n)], at + 1 + 2 * n
            share = lambda i, v, c=coefs: c[i] * v
        rules.append((share, number(end, 4), number(end + 4, 4)))
        at = end + 8
    return sets, weights, rules


def built(sets, rules, width, relaxed):
    """The arcs, a dictionary (layer, node, step) -> child's place, and whether the diagram is exact."""
    n, arcs, exact = len(sets), {}, True
    reach = [[(0, 0)] * len(rules) for _ in range(n + 1)]
    for i in range(n - 1, -1, -1):
        for r, (share, _, _) in enumerate(rules):
            mine = [share(i, v) for v in sets[i]]
            reach[i][r] = (reach[i + 1][r][0] + min(mine), reach[i + 1][r][1] + max(mine))
    layer = [((0, 0),) * len(rules)]
    for i in range(n):
        states, made = [], []
        for j, node in enumerate(layer):
            for v in sets[i]:
                child = tuple((low + share(i, v), high + share(i, v)) for (low, high), (share, _, _) in zip(node, rules))
                if all(l + a <= ub and h + b >= lb for (l, h), (a, b), (_, lb, ub) in zip(child, reach[i + 1], rules)):
                    if child not in states:
                        states.append(child)
                    made.append((i, j, v, states.index(child)))
        if i == n - 1:
            arcs.update({(i, j, v): 0 for i, j, v, _ in made})
            break
        exact = exact and len(states) <= width
        if relaxed:
            arcs.update({(i, j, v): min(k, width - 1) for i, j, v, k in made})
            rest = states[width - 1 :]
            if len(states) > width:
                rest = [tuple((min(p[0] for p in ps), max(p[1] for p in ps)) for ps in zip(*rest))]
            layer = states[: width - 1] + rest
        else:
            arcs.update({(i, j, v): k for i, j, v, k in made if k < width})
            layer = states[:width]
    return arcs, exact


def numbers(sets, weights, rules, arcs):
    """Down and up numbers of the nodes that have them: pairs for each rule, and a cost."""
    n = len(sets)

    def over(x, i, v):
        return [(l + share(i, v), h + share(i, v)) for (l, h), (share, _, _) in zip(x[0], rules)], x[1] + weights[i] * v

    def meet(table, node, x):
        if node in table:
            pairs, cost = table[node]
            x = [(min(a, c), max(b, d)) for (a, b), (c, d) in zip(pairs, x[0])], min(cost, x[1])
        table[node] = x

    zero = [(0, 0)] * len(rules), 0
    down, up = {(0, 0): zero}, {(n, 0): zero}
    for i, j, v in sorted(arcs):
        if (i, j) in down:
            meet(down, (i + 1, arcs[i, j, v]), over(down[i, j], i, v))
    for i, j, v in sorted(arcs, reverse=True):
        if (i + 1, arcs[i, j, v]) in up:
            meet(up, (i, j), over(up[i + 1, arcs[i, j, v]], i, v))
    return down, up


def tested(sets, weights, rules, arcs, ceiling):
    """The arcs that stay: on a path and, in a round, within the rules and the ceiling (none: the closing sweep)."""
    down, up = numbers(sets, weights, rules, arcs)

    def stays(i, j, v):
        d, u = down.get((i, j)), up.get((i + 1, arcs[i, j, v]))
        if d is None or u is None:
            return False
        fits = lambda p, e, rule: p[0] + rule[0](i, v) + e[0] <= rule[2] and p[1] + rule[0](i, v) + e[1] >= rule[1]
        return ceiling is None or all(map(fits, d[0], u[0], rules)) and d[1] + weights[i] * v + u[1] <= ceiling

    return {a: arcs[a] for a in arcs if stays(*a)}


def buffers(file, width, arcs, sizes):
    """Both buffers of these lengths, and the sink's cost down or None."""
    sets, weights, rules = problem(file)
    down, up = numbers(sets, weights, rules, arcs)
    n, k = len(sets), 4 * len(rules) + 3
    bytes_, cells = bytearray(sizes[0]), [0] * sizes[1]
    for (i, j, v), to in arcs.items():
        bytes_[(i * width + j) * 8 + v] = to + 1
    for node in down:
        if node in up:
            (d, x), (u, y) = down[node], up[node]
            at = (node[0] * width + node[1]) * k
            cells[at : at + k] = [1] + [z for p, e in zip(d, u) for z in p + e] + [x, y]
    return bytes_, cells, down[n, 0][1] if (n, 0) in down else None


def relaxed(file, width, rounds, ceiling, sizes):
    sets, weights, rules = problem(file)
    arcs, exact = built(sets, rules, width, True)
    for _ in range(rounds):
        arcs = tested(sets, weights, rules, arcs, ceiling)
    return *buffers(file, width, tested(sets, weights, rules, arcs, None), sizes), exact


def restricted(file, width, sizes):
    sets, weights, rules = problem(file)
    arcs, exact = built(sets, rules, width, False)
    arcs = tested(sets, weights, rules, arcs, None)
    down, up = numbers(sets, weights, rules, arcs)
    plan, j = bytearray(sizes[2]), 0
    for i in range(len(sets) if (0, 0) in up else 0):
        plan[i] = next(v for v in range(8) if (i, j, v) in arcs and up[i + 1, arcs[i, j, v]][1] + weights[i] * v == up[i, j][1])
        j = arcs[i, j, plan[i]]
    return *buffers(file, width, arcs, sizes), exact, plan
