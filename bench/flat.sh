#!/bin/sh
# Measures `flat` on netlists of 30,000, 60,000 and 120,000 `.names`, as they stand and with their lines in reversed order, on a chain of 100,000
# inverters, on placements of a model of 400 statements, on a cover of 16 inputs and thousands of rows, and on the cipher PRESENT-80: processor seconds, peak memory for each
# byte of input or output, whichever is larger, how the time grows with the input, and, where the peer ABC is installed, the ratio to its `read_blif; write_blif` on the same file.
# The figures of one run go together, since machines are noisy. Needs python3.
top=$(CDPATH='' cd -- "$(dirname -- "$0")/.." && pwd) && cd "$top" || exit 1
work=$(mktemp -d) || exit 1
trap 'rm -rf "$work"' EXIT
./impeccable >/dev/null 2>&1
exec python3 - "$top/crates/impeccable_cli/out/impeccable_cli" "$work" <<'END'
import os, resource, shutil, subprocess, sys

program, work = sys.argv[1:]

def table_lines(count):
    # One row each: a cover costs 8, and 1,000,000 is the most that a source may cost. ABC reads no cover of inputs without rows.
    lines = [f".names i{n % 64} {'i1' if n < 1 else f'n{n - 1}'} n{n}\n{n % 2}{n // 2 % 2} 1\n" for n in range(count - 1)]
    return lines + [f".names n{count - 2} last\n1 1\n"]

def tables(f, count, lines=None):
    f.write(".model tables\n" + "".join(f".inputs i{k}\n" for k in range(64)) + ".outputs last\n")
    f.writelines(lines or table_lines(count))
    f.write(".end\n")

def reversed_tables(f, count):
    tables(f, count, table_lines(count)[::-1])

def inverters(f, count):
    f.write(".model chain\n.inputs n0\n.outputs last\n")
    for n in range(count - 1):
        f.write(f".names n{n} n{n + 1}\n0 1\n")
    f.write(f".names n{count - 1} last\n0 1\n.end\n")

def placements(f, count):
    # A cover without inputs costs 2, so that 1,000 placements of 400 statements stay within that limit.
    f.write(".model top\n.inputs x0\n.outputs last\n")
    for n in range(count):
        f.write(f".subckt inner a=x{n} y={'last' if n == count - 1 else f'x{n + 1}'}\n")
    f.write(".end\n.model inner\n.inputs a\n.outputs y\n" + "".join(f".names n{n}\n" for n in range(399)) + ".names a y\n1 1\n.end\n")

def wide_cover(f, count):
    f.write(".model wide\n" + "".join(f".inputs i{k}\n" for k in range(16)) + ".outputs y\n.names " + " ".join(f"i{k}" for k in range(16)) + " y\n")
    for row in range(count):
        f.write(f"{row * 13 % 65536:016b} 1\n")
    f.write(".end\n")

def run(words, out):
    # the best of three runs, and the peak memory of one
    best, peak = None, 0
    for _ in range(3):
        process = subprocess.Popen(words, stdout=open(out, "w"), stderr=subprocess.STDOUT)
        _, status, usage = os.wait4(process.pid, 0)
        seconds = usage.ru_utime + usage.ru_stime
        if status and words[0] == program:
            sys.exit(f"{words}: status {status}: " + open(out).read(200))
        best = seconds if best is None else min(best, seconds)
        peak = max(peak, usage.ru_maxrss * 1024)
    return best, peak

def measure(name, path, before):
    out = f"{work}/out"
    seconds, peak = run([program, "flat", path], out)
    size = max(os.path.getsize(path), os.path.getsize(out))
    line = f"{name}: {size} bytes, {seconds:.3f} s, {peak / size:.1f} bytes of memory for each byte"
    if before:
        line += f", {seconds / before:.2f} times as long as half of it"
    if abc:
        # ABC ends with 0 also where it refuses a file, and breaks on deep ones: only what it wrote shows that it read it.
        written = f"{work}/peer.blif"
        if os.path.exists(written):
            os.remove(written)
        peer, _ = run([abc, "-q", f"read_blif {path}; write_blif {written}"], f"{work}/told")
        line += f", {seconds / peer:.2f} times ABC ({peer:.3f} s)" if os.path.exists(written) else ", ABC fails on it"
    print(line, flush=True)
    return seconds

abc = shutil.which("berkeley-abc") or shutil.which("abc")
print(f"{os.cpu_count()} processors; ABC: {abc or 'not installed, skipped'}")
for make, counts in [(tables, [30000, 60000, 120000]), (reversed_tables, [30000, 60000, 120000]), (inverters, [100000]), (placements, [500, 1000]), (wide_cover, [2000, 4000])]:
    before = None
    for count in counts:
        path = f"{work}/{make.__name__}{count}.blif"
        with open(path, "w") as f:
            make(f, count)
        before = measure(f"{make.__name__} {count}", path, before)
measure("PRESENT-80", "examples/present80.blif", None)
END
