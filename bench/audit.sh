#!/bin/sh
# Measures `audit` on netlists of 100,000, 200,000 and 400,000 cells: a chain of inverters, each with its one bit, of which every line is written;
# and a cell that 4,096 outputs read, each through a chain of its own, which is found. Processor seconds, the best of three, and peak memory
# for each byte of input. The figures of one run go together, since machines are noisy. Needs python3.
top=$(CDPATH='' cd -- "$(dirname -- "$0")/.." && pwd) && cd "$top" || exit 1
work=$(mktemp -d) || exit 1
trap 'rm -rf "$work"' EXIT
./impeccable >/dev/null 2>&1
exec python3 - "$top/crates/impeccable_cli/out/impeccable_cli" "$work" <<'END'
import os, subprocess, sys

program, work = sys.argv[1:]
OUTPUTS = 4096

def chain(path, count):
    with open(path, "w") as f:
        f.write(".model chain\n.inputs n0\n.outputs last\n")
        for n in range(count - 1):
            f.write(f".names n{n} n{n + 1}\n0 1\n")
        f.write(f".names n{count - 1} last\n0 1\n.end\n")
    return 0, f"independent {count}\n", "\nlast output last\n", count + 1

def fan(path, count):
    # the cells of the chains stand in turns: one of each chain, then the next of each
    nets = ["root"] * OUTPUTS
    with open(path, "w") as f:
        f.write(".model fan\n.inputs x\n" + "".join(f".outputs y{k}\n" for k in range(OUTPUTS)) + ".names x root\n0 1\n")
        for n in range(count - 1 - OUTPUTS):
            k = n % OUTPUTS
            f.write(f".names {nets[k]} n{n}\n0 1\n")
            nets[k] = f"n{n}"
        f.writelines(f".names {net} y{k}\n0 1\n" for k, net in enumerate(nets))
        f.write(".end\n")
    told = "shared root output y0 output y1\n"
    return 6, told, told, 1

def run(path, status, first, last, lines):
    # the best of three runs, and the most memory of one
    best, peak = None, 0
    for _ in range(3):
        process = subprocess.Popen([program, "audit", path], stdout=open(f"{work}/out", "w"))
        _, code, usage = os.wait4(process.pid, 0)
        seconds = usage.ru_utime + usage.ru_stime
        text = open(f"{work}/out").read()
        if os.waitstatus_to_exitcode(code) != status or not text.startswith(first) or not text.endswith(last) or text.count("\n") != lines:
            sys.exit(f"{path}: status {os.waitstatus_to_exitcode(code)}: {text[:200]}")
        best = seconds if best is None else min(best, seconds)
        peak = max(peak, usage.ru_maxrss * 1024)
    return best, peak

print(f"{os.cpu_count()} processors")
for name, make in [("chain", chain), ("fan", fan)]:
    before = None
    for count in [100_000, 200_000, 400_000]:
        path = f"{work}/{name}{count}.blif"
        told = make(path, count)
        size = os.path.getsize(path)
        seconds, peak = run(path, *told)
        line = f"{name} {count}: {size} bytes, {seconds:.3f} s, {peak / size:.1f} bytes of memory for each byte"
        if before:
            line += f", {seconds / before:.2f} times as long as half of it"
        before = seconds
        print(line, flush=True)
END
