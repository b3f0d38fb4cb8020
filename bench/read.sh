#!/bin/sh
# Measures the reading of netlists of 10, 20 and 40 MB alone: the only fault of each stands on its last line, so that nothing
# is written. Needs python3.
top=$(CDPATH='' cd -- "$(dirname -- "$0")/.." && pwd) && cd "$top" || exit 1
work=$(mktemp -d) || exit 1
trap 'rm -rf "$work"' EXIT
./impeccable >/dev/null 2>&1
exec python3 - "$top/crates/impeccable_cli/out/impeccable_cli" "$work" <<'END'
import os, subprocess, sys, time

program, work = sys.argv[1:]

def netlist(path, size):
    with open(path, "w") as f:
        written = f.write(".model big\n.inputs a b\n.outputs y\n")
        n = 0
        while written < size:
            written += f.write(f".names a net{n} net{n + 1}\n1- 1\n-1 1\n")
            n += 1
        f.write(".names a\n0 0\n0\n")

print(f"{os.cpu_count()} processors")
before = None
for size in [10_000_000, 20_000_000, 40_000_000]:
    path = f"{work}/big.blif"
    netlist(path, size)
    best, peak = None, 0
    for _ in range(3):
        start = time.perf_counter()
        process = subprocess.Popen([program, "flat", path], stdout=subprocess.DEVNULL, stderr=subprocess.PIPE)
        told = process.stderr.read().decode()
        _, status, usage = os.wait4(process.pid, 0)
        seconds = time.perf_counter() - start
        if "B2 line" not in told:
            sys.exit(f"status {status}: {told}")
        best = seconds if best is None else min(best, seconds)
        peak = max(peak, usage.ru_maxrss * 1024)
    real = os.path.getsize(path)
    line = f"{real} bytes: {best:.3f} s, {real / best / 1e6:.1f} MB a second, {peak / real:.1f} bytes of memory for each byte"
    if before:
        line += f", {best / before:.2f} times as long as half of it"
    before = best
    print(line, flush=True)
END
