#!/usr/bin/env python3
"""The most stack that each function of the C interface uses, in bytes: the frames of the archive's machine code added up along its calls.

usage: stack.py ARCHIVE [OBJDUMP]. The recursion over the slots counts 24 times; memcpy and memset count nothing.
"""
import re
import subprocess
import sys

SLOTS = 24


def calls_of(archive, objdump):
    """For each function its deepest point and its calls: (callee, depth at the call, the return address included)."""
    text = subprocess.run([objdump, "-dr", "--no-show-raw-insn", archive], capture_output=True, text=True, check=True).stdout
    functions, name = {}, None
    for line in text.splitlines():
        start = re.match(r"^[0-9a-f]+ <(.*)>:$", line)
        if start:
            name, depth, body = start.group(1), 0, 0
            functions[name] = [0, []]
            continue
        if name is None:
            continue
        place = re.match(r"^\s+[0-9a-f]+: R_X86_64_(?:PLT|PC)32\s+(.*?)[-+]0x", line)
        if place and called:
            functions[name][1].append((place.group(1).removeprefix(".text."), depth + 8))
            called = False
            continue
        code = re.match(r"^\s+[0-9a-f]+:\s+(\S+)\s*(.*)$", line)
        if not code:
            continue
        op, operands = code.groups()
        move = re.match(r"\$(-?0x[0-9a-f]+),%rsp", operands)
        called = op.startswith("call")
        if op.startswith("push"):
            depth += 8
        elif op.startswith("pop"):
            depth -= 8
        elif move and op.startswith("sub"):
            depth += int(move.group(1), 16)
        elif move and op.startswith("add"):
            depth -= int(move.group(1), 16)
        elif op.startswith("ret"):
            depth = body
        if op.startswith("sub") and move or body == 0:
            body = max(body, depth)
        functions[name][0] = max(functions[name][0], depth)
        own = re.match(r"[0-9a-f]+ <([^+>]+)>", operands)
        if called and own and own.group(1) == name:
            functions[name][1].append((name, depth + 8))
            called = False
    return functions


def most(name, functions):
    """The most stack below a call of this function, its own return address not included."""
    if name not in functions:
        return 0
    own, calls = functions[name]
    levels = max([depth for callee, depth in calls if callee == name], default=0)
    return (SLOTS - 1) * levels + max([own] + [depth + most(callee, functions) for callee, depth in calls if callee != name])


def main():
    archive, objdump = sys.argv[1], (sys.argv[2:] or ["objdump"])[0]
    functions = calls_of(archive, objdump)
    for name in sorted(functions):
        if name.startswith("brennigou_"):
            print(f"{name:24}{8 + most(name, functions):7}")


main()
