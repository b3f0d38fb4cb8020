#!/bin/sh
# Measures `guard` on the cipher PRESENT-80 and on demo designs of 16, 32 and 64 S-boxes: processor seconds, peak memory for each byte of output, cells against the plain
# size, how the time grows with the source, and, where they are installed, the ratio to Yosys' `read_blif; write_blif` and ABC's on the text that was written. PRESENT-80 is
# also guarded in correction, for one and for two faulty cells, beside the reading of the text that was written, which is that of the same netlist with a fault on its last line;
# the bar is three times that. The figures of one run go together, since machines are noisy. Needs python3.
top=$(CDPATH='' cd -- "$(dirname -- "$0")/.." && pwd) && cd "$top" || exit 1
work=$(mktemp -d) || exit 1
trap 'rm -rf "$work"' EXIT
./impeccable >/dev/null 2>&1
exec python3 - "$top" "$work" <<'END'
import os, shutil, subprocess, sys

top, work = sys.argv[1:]
program = f"{top}/crates/impeccable_cli/out/impeccable_cli"
ROWS = ["0111", "1011", "1101", "1110"]
TABLE = [12, 5, 6, 11, 9, 0, 10, 13, 3, 14, 15, 8, 4, 7, 1, 2]

def run(words, out, refused=""):
    # the best of three runs, and the peak memory of one; where a refusal is expected, it has this code
    best, peak = None, 0
    for _ in range(3):
        process = subprocess.Popen(words, stdout=open(out, "w"), stderr=subprocess.STDOUT)
        _, status, usage = os.wait4(process.pid, 0)
        seconds = usage.ru_utime + usage.ru_stime
        if words[0] == program and (refused not in open(out).read(200) if refused else status):
            sys.exit(f"{words}: status {status}: " + open(out).read(200))
        best = seconds if best is None else min(best, seconds)
        peak = max(peak, usage.ru_maxrss * 1024)
    return best, peak

def demo(n):
    # A register of 4n bits: each cycle an S-box over each four of them, and then the bits change places. Its plain size is 4,720 n + 4.
    bits = range(4 * n)
    lines = [".model demo\n.inputs load " + " ".join(f"p{i}" for i in bits) + "\n.outputs " + " ".join(f"c{i}" for i in bits) + "\n"]
    lines += [f".latch n{i} s{i} 0\n" for i in bits]
    for j in range(0, 4 * n, 4):
        lines.append(".subckt present " + " ".join(f"i{k}=s{j + k} o{k}=b{j + k}" for k in range(4)) + "\n")
    for i in bits:
        e = i if i == 4 * n - 1 else n * i % (4 * n - 1)
        lines.append(f".names load p{e} b{i} n{e}\n11- 1\n0-1 1\n")
    lines += [f".names s{i} c{i}\n1 1\n" for i in bits]
    return "".join(lines) + ".end\n"

def settings(path):
    with open(path, "w") as f:
        f.write('mode = "detect"\nbound = 3\ncheck = [' + ", ".join(f'"{r}"' for r in ROWS) + "]\n")
        f.write(f"[sbox.present]\ninputs = 4\noutputs = 4\nvalues = {TABLE}\n")

abc = shutil.which("berkeley-abc") or shutil.which("abc")
yosys = shutil.which("yosys")
print(f"{os.cpu_count()} processors; Yosys: {yosys or 'not installed, skipped'}; ABC: {abc or 'not installed, skipped'}")

def measure(name, toml, source, plain, before):
    out, told = f"{work}/guard.blif", f"{work}/told"
    seconds, peak = run([program, "guard", toml, source], out)
    size = os.path.getsize(out)
    text = open(out).read()
    cells = text.count("\n.names ") + text.count("\n.latch ")
    line = f"{name}: {size} bytes, {cells} cells{plain}, {seconds:.3f} s, {peak / size:.1f} bytes of memory for each byte"
    if before:
        line += f", {seconds / before:.2f} times as long as half of it"
    if yosys:
        peer, _ = run([yosys, "-q", "-p", f"read_blif {out}; write_blif {work}/peer.blif"], told)
        line += f", {seconds / peer:.2f} times Yosys ({peer:.3f} s)"
    if abc:
        if os.path.exists(f"{work}/peer.blif"):
            os.remove(f"{work}/peer.blif")
        peer, _ = run([abc, "-q", f"read_blif {out}; write_blif {work}/peer.blif"], told)
        line += f", {seconds / peer:.2f} times ABC ({peer:.3f} s)" if os.path.exists(f"{work}/peer.blif") else ", ABC fails on it"
    print(line, flush=True)
    return seconds

measure("PRESENT-80", f"{top}/examples/present80.toml", f"{top}/examples/present80.blif", "", None)
before = None
for n in (16, 32, 64):
    with open(f"{work}/demo.blif", "w") as f:
        f.write(demo(n))
    settings(f"{work}/demo.toml")
    before = measure(f"{n} S-boxes", f"{work}/demo.toml", f"{work}/demo.blif", f" (plain size {4720 * n + 4})", before)

# In correction: words of four bits that correct one place of seven, and single bits that correct two places of five.
for bound, rows in ((1, ["110", "101", "011", "111"]), (2, ["1111"])):
    with open(f"{work}/correct.toml", "w") as f:
        f.write(f'mode = "correct"\nbound = {bound}\ncheck = [' + ", ".join(f'"{r}"' for r in rows) + "]\n")
    name = f"PRESENT-80 in correction, bound {bound}"
    seconds = measure(name, f"{work}/correct.toml", f"{top}/examples/present80.blif", "", None)
    text = open(f"{work}/guard.blif").read()
    with open(f"{work}/bad.blif", "w") as f:
        f.write(text.replace(".end\n", ".names a\n0 0\n0\n"))
    read, _ = run([program, "flat", f"{work}/bad.blif"], f"{work}/told", " B2 ")
    print(f"  {seconds / read:.2f} times the {read:.3f} s of reading that text", flush=True)
END
