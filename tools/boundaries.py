#!/usr/bin/env python3
"""boundaries.py: calls at every boundary of the plan file's rules, as lines in the words of the recorded vectors (cut_vectors.py takes
them). Each answer is written down by hand from the paper's rules; none is computed by the code that it tests."""
from struct import pack

lines = []


def call(operation, name, plans, file, answer):
    words = [operation, "edge_" + name, *(data.hex() or "-" for data in [*plans, file])]
    lines.append(" ".join(words) + " = " + answer)


def read(name, file, answer):
    call("read", name, [], file, answer)


def judge(name, plan, file, answer):
    call("judge", name, [bytes(plan)], file, answer)


def better(name, standing, new, file, answer):
    call("better", name, [bytes(standing), bytes(new)], file, answer)


def cuts(name, file, answer):
    """What read says of the first 0, 1, 2, .. bytes of the file, up to all of them: one number after the other."""
    call("cuts", name, [], file, answer)


def head(n, m, mark=b"RTP", version=1):
    return mark + pack("<HBB", version, n, m)


def among(values, slots, lb, ub):
    return pack("<BBIii", 1, values, slots, lb, ub)


def sum_rule(coefs, lb, ub):
    return pack(f"<B{len(coefs)}hii", 2, *coefs, lb, ub)


def plan_file(sets, weights, *rules):
    return head(len(sets), len(rules)) + bytes(sets) + pack(f"<{len(weights)}i", *weights) + b"".join(rules)


def two(*rules):
    """Two slots, {0,1} and {0,2}, with weights 1 and -2."""
    return plan_file([3, 5], [1, -2], *rules)


def times(number, k):
    return ",".join([str(number)] * k)


A_RULE, A_RULE_SAYS = among(2, 3, 0, 1), "1,2,3,0,0,0,1"
B_RULE, B_RULE_SAYS = sum_rule([4, -5], -6, 7), "2,0,0,4,-5,-6,7"
MOST = plan_file([255] * 24, [10000] * 24, *[sum_rule([1000] * 24, 168000, 200000)] * 8)
MOST_RULE = f"2,0,0,{times(1000, 24)},168000,200000"

# ---- read: the head
read("empty", b"", "1")
read("six_bytes_wrong_mark", b"XTP\1\0\1", "1")
read("six_bytes_wrong_version", b"RTP\2\0\1", "1")
read("mark_0", head(1, 0, b"rTP") + b"\1\0\0\0\0", "2")
read("mark_1", head(1, 0, b"RtP") + b"\1\0\0\0\0", "2")
read("mark_2", head(1, 0, b"RTQ") + b"\1\0\0\0\0", "2")
read("version_0", head(1, 0, version=0) + b"\1\0\0\0\0", "3")
read("version_2", head(1, 0, version=2) + b"\1\0\0\0\0", "3")
read("version_256", head(1, 0, version=256) + b"\1\0\0\0\0", "3")
read("version_257", head(1, 0, version=257) + b"\1\0\0\0\0", "3")
read("n_0", head(0, 0), "4")
read("n_1", plan_file([1], [0]), "0 1,0 1 0")
read("n_24", plan_file([255] * 24, [-1] * 24), f"0 24,0 {times(255, 24)} {times(-1, 24)}")
read("n_25", plan_file([255] * 25, [-1] * 25), "4")
read("n_25_seven_bytes", head(25, 0), "4")
read("m_0", two(), "0 2,0 3,5 1,-2")
read("m_8", two(*[A_RULE, B_RULE] * 4), "0 2,8 3,5 1,-2" + f" {A_RULE_SAYS} {B_RULE_SAYS}" * 4)
read("m_9", two(*[A_RULE] * 9), "4")
read("m_9_seven_bytes", head(1, 9), "4")

# ---- read: sets and weights
read("set_1", plan_file([1, 128], [0, 0]), "0 2,0 1,128 0,0")
read("set_zero_first", plan_file([0, 1], [0, 0]), "5")
read("set_zero_last", plan_file([1, 0], [0, 0]), "5")
for weight in (10000, -10000):
    read(f"weight_{weight}_first", plan_file([3, 5], [weight, 0]), f"0 2,0 3,5 {weight},0")
    read(f"weight_{weight}_last", plan_file([3, 5], [0, weight]), f"0 2,0 3,5 0,{weight}")
for weight in (10001, -10001, 2147483647, -2147483648):
    read(f"weight_{weight}_first", plan_file([3, 5], [weight, 0]), "5")
    read(f"weight_{weight}_last", plan_file([3, 5], [0, weight]), "5")

# ---- read: rules
for kind in (0, 3, 255):
    read(f"kind_{kind}", two(bytes([kind]) + A_RULE[1:]), "6")
    read(f"kind_{kind}_after_a_rule", two(B_RULE, bytes([kind])), "6")
read("kind_1", two(A_RULE), "0 2,1 3,5 1,-2 " + A_RULE_SAYS)
read("kind_2", two(B_RULE), "0 2,1 3,5 1,-2 " + B_RULE_SAYS)
read("kinds_1_2_1", two(A_RULE, B_RULE, A_RULE), f"0 2,3 3,5 1,-2 {A_RULE_SAYS} {B_RULE_SAYS} {A_RULE_SAYS}")
read("s_zero", two(among(0, 3, 0, 1)), "0 2,1 3,5 1,-2 1,0,3,0,0,0,1")
read("s_255", two(among(255, 3, 0, 1)), "0 2,1 3,5 1,-2 1,255,3,0,0,0,1")
read("no_slots", two(among(2, 0, 0, 1)), "0 2,1 3,5 1,-2 1,2,0,0,0,0,1")
read("slot_bit_1_of_2", two(among(2, 2, 0, 1)), "0 2,1 3,5 1,-2 1,2,2,0,0,0,1")
read("slot_bit_2_of_2", two(among(2, 4, 0, 1)), "6")
read("slot_bit_31_of_2", two(among(2, 2**31, 0, 1)), "6")
read("slot_bit_0_of_1", plan_file([1], [0], among(2, 1, 0, 1)), "0 1,1 1 0 1,2,1,0,0,1")
read("slot_bit_1_of_1", plan_file([1], [0], among(2, 2, 0, 1)), "6")
read(
    "slot_bit_23_of_24",
    plan_file([1] * 24, [0] * 24, among(2, 2**23, 0, 1)),
    f"0 24,1 {times(1, 24)} {times(0, 24)} 1,2,8388608,{times(0, 24)},0,1",
)
read("slot_bit_24_of_24", plan_file([1] * 24, [0] * 24, among(2, 2**24, 0, 1)), "6")
read("slot_bit_31_of_24", plan_file([1] * 24, [0] * 24, among(2, 2**31, 0, 1)), "6")
read("among_lb_above_its_slots", two(among(2, 3, 3, 4)), "0 2,1 3,5 1,-2 1,2,3,0,0,3,4")
for coef in (1000, -1000):
    read(f"coef_{coef}_first", two(sum_rule([coef, 0], 0, 1)), f"0 2,1 3,5 1,-2 2,0,0,{coef},0,0,1")
    read(f"coef_{coef}_last", two(sum_rule([0, coef], 0, 1)), f"0 2,1 3,5 1,-2 2,0,0,0,{coef},0,1")
for coef in (1001, -1001, 32767, -32768):
    read(f"coef_{coef}_first", two(sum_rule([coef, 0], 0, 1)), "6")
    read(f"coef_{coef}_last", two(sum_rule([0, coef], 0, 1)), "6")
for lb, ub in ((-200000, 200000), (-200000, -200000), (200000, 200000), (1, 1), (-1, -1), (-1, 0)):
    read(f"among_{lb}_{ub}", two(among(2, 3, lb, ub)), f"0 2,1 3,5 1,-2 1,2,3,0,0,{lb},{ub}")
    read(f"sum_{lb}_{ub}", two(sum_rule([4, -5], lb, ub)), f"0 2,1 3,5 1,-2 2,0,0,4,-5,{lb},{ub}")
for lb, ub in (
    (-200001, 0),
    (0, 200001),
    (-200001, -200001),
    (200001, 200001),
    (2, 1),
    (-1, -2),
    (200000, -200000),
    (-2147483648, 2147483647),
):
    read(f"among_{lb}_{ub}", two(among(2, 3, lb, ub)), "6")
    read(f"sum_{lb}_{ub}", two(sum_rule([4, -5], lb, ub)), "6")
read("longest", MOST, f"0 24,8 {times(255, 24)} {times(10000, 24)}" + f" {MOST_RULE}" * 8)

# ---- read: every cut, and a byte behind
cuts("no_rule", two(), "1" * 17 + "0 2,0 3,5 1,-2")
cuts("among", two(A_RULE), "1" * 31 + "0 2,1 3,5 1,-2 " + A_RULE_SAYS)
cuts("sum", two(B_RULE), "1" * 30 + "0 2,1 3,5 1,-2 " + B_RULE_SAYS)
cuts("sum_among", two(B_RULE, A_RULE), "1" * 44 + f"0 2,2 3,5 1,-2 {B_RULE_SAYS} {A_RULE_SAYS}")
read("behind_no_rule", two() + b"\0", "7")
read("behind_among", two(A_RULE) + b"\0", "7")
read("behind_sum", two(B_RULE) + b"\2", "7")
read("behind_longest", MOST + b"\0", "7")

# ---- read: two faults, of which the first in file order decides
read("mark_then_version", head(1, 0, b"RTQ", 2) + b"\1\0\0\0\0", "2")
read("mark_then_n", head(25, 0, b"RTQ"), "2")
read("version_then_n", head(25, 0, version=2), "3")
read("version_then_cut", head(1, 0, version=2), "3")
read("n_then_m", head(25, 9), "4")
read("n_then_cut", head(0, 1), "4")
read("m_then_set", head(1, 9) + b"\0\0\0\0\0", "4")
read("sets_cut_then_set", head(2, 0) + b"\0", "1")
read("set_then_weights_missing", head(2, 0) + b"\0\1", "5")
read("set_then_weights_cut", head(1, 0) + b"\0\0\0\0", "5")
read("set_then_kind", plan_file([0], [0], b"\3"), "5")
read("weights_cut_then_weight", plan_file([1, 1], [10001, 0])[:-1], "1")
read("weight_then_kind", plan_file([1], [10001], b"\3"), "5")
read("weight_then_kind_missing", plan_file([1], [10001], b""), "5")
read("weight_then_behind", plan_file([1], [10001]) + b"\0", "5")
read("kind_missing", two(b""), "1")
read("kind_then_body_missing", two(b"\3"), "6")
read("kind_then_rule_cut", two(b"\0", A_RULE[:-1]), "6")
read("body_cut_then_slots", two(among(2, 4, 0, 1)[:-1]), "1")
read("body_cut_then_coef", two(sum_rule([1001, 0], 0, 1)[:-1]), "1")
read("body_cut_then_bounds", two(among(2, 3, 200001, 0)[:-1]), "1")
read("slots_then_kind_missing", two(among(2, 4, 0, 1), b""), "6")
read("coef_then_rule_cut", two(sum_rule([1001, 0], 0, 1), A_RULE[:-1]), "6")
read("bounds_then_behind", two(among(2, 3, 1, 0)) + b"\0", "6")
read("rule_cut_then_rule", two(A_RULE, sum_rule([1001, 0], 0, 1)[:4]), "1")
read("kind_then_behind", two(b"\3") + b"\0", "6")

# ---- judge: the plan's length and steps
judge("length_0", [], two(), "0 0,0")
judge("length_1_of_2", [1], two(), "0 0,0")
judge("length_3_of_2", [1, 2, 0], two(), "0 0,0")
judge("rests", [0, 0], two(), "0 1,0")
judge("steps", [1, 2], two(), "0 1,-3")
judge("not_in_the_first_set", [2, 2], two(), "0 0,0")
judge("not_in_the_last_set", [1, 1], two(), "0 0,0")
judge("step_255_first", [255, 0], two(), "0 0,0")
judge("step_255_last", [0, 255], two(), "0 0,0")
judge("step_7", [7], plan_file([255], [-10000]), "0 1,-70000")
for step in (8, 9, 15, 16, 23, 24, 32, 64, 128, 255):
    judge(f"step_{step}", [step], plan_file([255], [-10000]), "0 0,0")

# ---- judge: the rules
three = plan_file([3, 3, 3], [1, 2, 4], among(2, 7, 1, 2))
judge("among_below_lb", [0, 0, 0], three, "0 0,0")
judge("among_at_lb", [0, 1, 0], three, "0 1,2")
judge("among_at_ub", [1, 0, 1], three, "0 1,5")
judge("among_above_ub", [1, 1, 1], three, "0 0,0")
judge("among_lb_above_its_slots", [1, 2], two(among(6, 3, 3, 4)), "0 0,0")
judge("among_unnamed_slot", [1, 2], two(among(6, 1, 1, 1)), "0 1,-3")
judge("among_step_outside_s", [1, 2], two(among(4, 3, 1, 1)), "0 1,-3")
judge("among_step_7", [7], plan_file([128], [1], among(128, 1, 1, 1)), "0 1,7")
judge("s_zero_holds", [1, 2], two(among(0, 3, 0, 0)), "0 1,-3")
judge("s_zero_fails", [1, 2], two(among(0, 3, 1, 1)), "0 0,0")
judge("no_slots_holds", [1, 2], two(among(255, 0, 0, 0)), "0 1,-3")
judge("no_slots_fails", [1, 2], two(among(255, 0, 1, 1)), "0 0,0")
judge("sum_equal", [1, 2], two(sum_rule([4, -5], -6, -6)), "0 1,-3")
judge("sum_above_ub", [1, 2], two(sum_rule([4, -5], -200000, -7)), "0 0,0")
judge("sum_below_lb", [1, 2], two(sum_rule([4, -5], -5, 200000)), "0 0,0")
judge("both_rules", [1, 2], two(among(6, 3, 2, 2), sum_rule([4, -5], -6, -6)), "0 1,-3")
judge("first_rule_broken", [1, 2], two(among(6, 3, 0, 1), sum_rule([4, -5], -6, -6)), "0 0,0")
judge("last_rule_broken", [1, 2], two(among(6, 3, 2, 2), sum_rule([4, -5], -5, -5)), "0 0,0")
judge("eighth_rule_broken", [1, 2], two(*[B_RULE] * 7, among(6, 3, 0, 1)), "0 0,0")
judge("most", [7] * 24, MOST, "0 1,1680000")
judge("most_but_one", [7] * 23 + [6], MOST, "0 0,0")
least = plan_file([128] * 24, [-10000] * 24, sum_rule([-1000] * 24, -168000, -168000))
judge("least", [7] * 24, least, "0 1,-1680000")

# ---- judge: every refusal, whatever the plan
judge("refused_1", [1, 2], two(A_RULE)[:-1], "1 unchanged")
judge("refused_2", [1, 2], b"RTQ" + two()[3:], "2 unchanged")
judge("refused_3", [1, 2], head(2, 0, version=257) + two()[7:], "3 unchanged")
judge("refused_4", [1, 2], two(*[A_RULE] * 9), "4 unchanged")
judge("refused_5", [1, 2], plan_file([3, 5], [1, 10001]), "5 unchanged")
judge("refused_6", [1, 2], two(among(2, 3, 2, 1)), "6 unchanged")
judge("refused_7", [1, 2], two() + b"\0", "7 unchanged")
judge("refused_7_length_0", [], two() + b"\0", "7 unchanged")

# ---- better
level = plan_file([3, 5], [2, -1])
better("new_is_cheaper", [1, 2], [0, 2], two(), "2")
better("standing_is_cheaper", [0, 2], [1, 2], two(), "1")
better("equal_cost", [1, 2], [0, 0], level, "1")
better("equal_cost_turned", [0, 0], [1, 2], level, "1")
better("standing_unlawful", [0, 1], [1, 0], two(), "2")
better("new_unlawful", [1, 0], [0, 4], two(), "1")
better("neither", [0, 1], [2, 2], two(), "0")
better("new_too_long", [1, 0], [0, 2, 0], two(), "1")
better("standing_too_short", [0], [1, 0], two(), "2")
better("standing_empty", [], [1, 0], two(), "2")
better("both_empty", [], [], two(), "0")
better("refused", [1, 2], [0, 2], two() + b"\0", "0")
