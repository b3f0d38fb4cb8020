#!/bin/sh
# Measures `sim` on a netlist of 10,000 cells of two inputs, 150 data inputs and 300 latches: cycles a second, and nanoseconds for each
# cell and cycle. Where Icarus Verilog is installed (Debian: iverilog), it runs the same netlist on the same stimulus; the outputs must
# be equal, and the ratio is printed; of both programs the time for no cycles is left out. Then it reads scripts of 4, 8 and 15 MiB. The figures of one run go
# together, since machines are noisy. Needs python3.
top=$(CDPATH='' cd -- "$(dirname -- "$0")/.." && pwd) && cd "$top" || exit 1
work=$(mktemp -d) || exit 1
trap 'rm -rf "$work"' EXIT
./impeccable >/dev/null 2>&1
exec python3 - "$top/crates/impeccable_cli/out/impeccable_cli" "$work" "$@" <<'END'
import os, random, shutil, subprocess, sys, time

program, work = sys.argv[1:3]
cycles, short = (int(w) for w in (sys.argv[3:] + ["2000", "500"])[:2])
CELLS, INPUTS, LATCHES, OUTPUTS = 10000, 150, 300, 32

random.seed(1)
inputs = [f"i{k}" for k in range(INPUTS)]
latches = [f"q{k}" for k in range(LATCHES)]
nets, cells = inputs + latches, []
tables = [0b0110, 0b1001, 0b1000, 0b1110, 0b0111, 0b0001, 0b0010, 0b1011]
for k in range(CELLS):
    a, b = random.sample(nets[-2000:] if random.random() < 0.9 else nets, 2)
    cells.append((a, b, f"n{k}", random.choice(tables)))
    nets.append(f"n{k}")
made = [c[2] for c in cells]
stores = random.sample(made, LATCHES)
outputs = random.sample(made[-1000:], OUTPUTS)

with open(f"{work}/net.blif", "w") as f:
    f.write(".model net\n.inputs " + " ".join(inputs) + "\n.outputs " + " ".join(outputs) + "\n")
    f.writelines(f".latch {d} {q} 0\n" for d, q in zip(stores, latches))
    for a, b, out, table in cells:
        f.write(f".names {a} {b} {out}\n" + "".join(f"{n >> 1}{n & 1} 1\n" for n in range(4) if table >> n & 1))
    f.write(".end\n")

def stimulus(count):
    rows = ["".join(random.choice("01") for _ in range(INPUTS)) for _ in range(count)]
    with open(f"{work}/stimulus", "w") as f:
        f.writelines(row + "\n" for row in rows)
    with open(f"{work}/rows", "w") as f:
        f.writelines(row + "\n" for row in rows)

def bench_file(count, run):
    terms = []
    for a, b, out, table in cells:
        parts = [f"({'' if n >> 1 else '~'}{a} & {'' if n & 1 else '~'}{b})" for n in range(4) if table >> n & 1]
        terms.append(f"  assign {out} = {' | '.join(parts)};\n")
    with open(f"{work}/net.v", "w") as f:
        f.write("module net;\n")
        f.write(f"  reg [{INPUTS - 1}:0] rows [0:{count - 1}];\n  reg [{INPUTS - 1}:0] x;\n  integer c, file;\n")
        f.writelines(f"  wire {name} = x[{INPUTS - 1 - k}];\n" for k, name in enumerate(inputs))
        f.writelines(f"  reg {q} = 0;\n" for q in latches)
        f.writelines(f"  wire {name};\n" for name in made)
        f.writelines(terms)
        f.write("  reg clk = 0;\n  always @(posedge clk) begin\n")
        f.writelines(f"    {q} <= {d};\n" for d, q in zip(stores, latches))
        f.write("  end\n  initial begin\n")
        f.write(f'    $readmemb("{work}/rows", rows);\n    file = $fopen("{work}/peer", "w");\n')
        f.write(f"    for (c = 0; c < {run}; c = c + 1) begin\n      x = rows[c]; #1;\n")
        f.write(f'      $fwrite(file, "{"%b" * OUTPUTS}\\n", {", ".join(outputs)});\n')
        f.write("      clk = 1; #1; clk = 0; #1;\n    end\n    $finish;\n  end\nendmodule\n")

memory = 0

def seconds(words, out):
    # processor seconds, the best of three runs; and the most memory in KiB
    global memory
    best = None
    for _ in range(3):
        process = subprocess.Popen(words, stdout=open(out, "w"))
        _, status, usage = os.wait4(process.pid, 0)
        if status:
            sys.exit(f"{words}: status {status}")
        used = usage.ru_utime + usage.ru_stime
        memory = usage.ru_maxrss
        best = used if best is None else min(best, used)
    return best

def show(name, count, used):
    print(f"{name}: {count} cycles in {used:.3f} s, {count / used:.0f} cycles a second, {used / count / CELLS * 1e9:.2f} ns for each cell and cycle", flush=True)

open(f"{work}/none", "w").close()
open(f"{work}/script", "w").close()
ours = [program, "sim", f"{work}/net.blif"]
idle = seconds(ours + [f"{work}/none", f"{work}/script"], f"{work}/out")
stimulus(cycles)
used = seconds(ours + [f"{work}/stimulus", f"{work}/script"], f"{work}/out") - idle
print(f"reading the netlist: {idle:.3f} s, which is left out of what follows")
show("sim", cycles, used)
size = os.path.getsize(f"{work}/net.blif") + os.path.getsize(f"{work}/stimulus")
print(f"memory: {memory / 1024:.1f} MiB for {size / 2**20:.2f} MiB of netlist and stimulus")

def script_bytes(mebibytes):
    # each cell in each cycle once, at most 16 of a cycle
    lines, have, cycle = [], 0, 0
    while have < mebibytes << 20:
        for k in range(16):
            line = f"{cycle} n{(cycle + 600 * k) % CELLS} 1\n"
            lines.append(line)
            have += len(line)
        cycle += 1
    with open(f"{work}/long", "w") as f:
        f.write("".join(lines)[: mebibytes << 20].rsplit("\n", 1)[0] + "\n")

before = None
for mebibytes in (4, 8, 15):
    script_bytes(mebibytes)
    used_long = seconds(ours + [f"{work}/none", f"{work}/long"], f"{work}/out") - idle
    note = f", {used_long / before[1] * before[0] / mebibytes:.2f} times a byte" if before else ""
    print(f"a script of {mebibytes} MiB: {used_long:.3f} s, {memory / 1024:.1f} MiB of memory{note}", flush=True)
    before = (mebibytes, used_long)

if not shutil.which("iverilog") or not shutil.which("vvp"):
    print("Icarus Verilog is not installed, skipped")
    sys.exit(0)
stimulus(short)
open(f"{work}/out", "w").write(subprocess.run(ours + [f"{work}/stimulus", f"{work}/script"], check=True, capture_output=True, text=True).stdout)
bench_file(short, 0)
subprocess.run(["iverilog", "-o", f"{work}/idle.vvp", f"{work}/net.v"], check=True)
peer_idle = seconds(["vvp", "-n", f"{work}/idle.vvp"], f"{work}/told")
bench_file(short, short)
subprocess.run(["iverilog", "-o", f"{work}/net.vvp", f"{work}/net.v"], check=True)
peer = seconds(["vvp", "-n", f"{work}/net.vvp"], f"{work}/told") - peer_idle
if open(f"{work}/peer").read() != open(f"{work}/out").read():
    sys.exit("the outputs differ")
show("Icarus", short, peer)
print(f"sim is {(peer / short) / (used / cycles):.1f} times as fast")
END
