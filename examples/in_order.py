#!/usr/bin/env python3
"""Puts the cells of a netlist of one model in an order in which each reads only what stands before it, as `sim` and `audit` of impeccable want it,
and leaves out cells that nothing reads. Reads BLIF from standard input (Yosys writes cells in an order of its own, and constants that nothing reads)."""
import sys

head, cells, end, latches = [], {}, [], []
cover = None
for line in sys.stdin.read().replace("\\\n", " ").split("\n"):
    words = line.split("#")[0].split()
    if not words:
        continue
    if words[0] == ".names":
        cover = [line]
        cells[words[-1]] = (words[1:-1], cover)
    elif words[0][0] != ".":
        cover.append(line)
    elif words[0] == ".end":
        end.append(line)
    else:
        head.append(line)
        if words[0] == ".latch":
            latches.append(words[1])
outputs = [word for line in head if line.split()[0] == ".outputs" for word in line.split()[1:]]
order, done = [], set()
for root in latches + outputs:
    stack = [root]
    while stack:
        net = stack[-1]
        waits = [n for n in cells[net][0] if n in cells and n not in done] if net in cells and net not in done else []
        if waits:
            stack += waits
            continue
        stack.pop()
        if net in cells and net not in done:
            done.add(net)
            order.append(net)
print("\n".join(head + [line for net in order for line in cells[net][1]] + end))
