#!/bin/sh
# Measures the plain size of a guard against the reading of its source. No command stops between the two, so the size is the difference of two runs of `guard`
# that write nothing: one whose state words name no net (`L1`, found just before the size), and one that is refused for its size (`G1`). The reading is that of
# the same netlist with a fault on its last line. The netlists are so many copies of the cipher PRESENT-80 side by side that the size passes the limit
# only in the last copy, and 100,000 covers in chains of 24, each with an output at its end, whose size passes the limit only in the last of 4,096 outputs.
# The bar is three times the reading. Processor seconds of one run, each the mean of twenty; the figures of one run go together, since machines are noisy. Needs python3.
top=$(CDPATH='' cd -- "$(dirname -- "$0")/.." && pwd) && cd "$top" || exit 1
work=$(mktemp -d) || exit 1
trap 'rm -rf "$work"' EXIT
./impeccable >/dev/null 2>&1
exec python3 - "$top" "$work" <<'END'
import os, subprocess, sys

top, work = sys.argv[1:]
program = f"{top}/crates/impeccable_cli/out/impeccable_cli"
RUNS = 20

def write(name, text):
    with open(f"{work}/{name}", "w") as f:
        f.write(text)
    return f"{work}/{name}"

def run(words, told):
    seconds = []
    for _ in range(RUNS):
        process = subprocess.Popen([program, *words], stdout=subprocess.DEVNULL, stderr=subprocess.PIPE)
        line = process.stderr.read().decode()
        _, status, usage = os.wait4(process.pid, 0)
        if told not in line:
            sys.exit(f"{words}: status {status}: {line}")
        seconds.append(usage.ru_utime + usage.ru_stime)
    return sum(seconds) / RUNS

def refused(settings, netlist):
    ran = subprocess.run([program, "guard", settings, netlist], stdout=subprocess.DEVNULL, stderr=subprocess.PIPE)
    return b" G1 " in ran.stderr

def copies(text, count):
    # the same model so many times in one: each net has the number of its copy behind it
    head, lines = [], []
    inputs, outputs = [], []
    for line in text.replace("\\\n", " ").splitlines():
        words = line.split("#")[0].split()
        if words and words[0] == ".inputs":
            inputs += words[1:]
        elif words and words[0] == ".outputs":
            outputs += words[1:]
        elif words and words[0] not in (".model", ".end"):
            lines.append(words)
    def own(words, k):
        if words[0] == ".latch":
            return [".latch", f"{words[1]}_{k}", f"{words[2]}_{k}", *words[3:]]
        if words[0] == ".names":
            return [".names", *(f"{n}_{k}" for n in words[1:])]
        return words
    data = [n for n in inputs if n != "clk"]
    text = ".model copies\n.inputs clk " + " ".join(f"{n}_{k}" for k in range(count) for n in data)
    text += "\n.outputs " + " ".join(f"{n}_{k}" for k in range(count) for n in outputs) + "\n"
    return text + "".join(" ".join(own(words, k)) + "\n" for k in range(count) for words in lines) + ".end\n"

def chains(outputs, full, bare, rest):
    # chains of covers with one row, and behind them covers without rows, which cost less
    text = ".model chains\n.inputs a\n.outputs " + " ".join(f"y{k}" for k in range(outputs)) + "\n"
    for k in range(outputs):
        nets = ["a"] + [f"n{k}_{i}" for i in range(full + bare - 1)] + [f"y{k}"]
        for i in range(full + bare):
            text += f".names {nets[i]} {nets[i + 1]}\n" + ("0 1\n" if i < full else "")
    return text + "".join(f".names z{k}\n" for k in range(rest)) + ".end\n"

def measure(name, settings, netlist):
    text = open(netlist).read()
    good = open(settings).read()
    wrong = write("wrong.toml", 'state_words = [["no such net"]]\n' + good)
    bad = write("bad.blif", text.replace(".end\n", ".names a\n0 0\n0\n"))
    read = run(["flat", bad], " B2 ")
    words = run(["guard", wrong, netlist], " L1 ")
    size = run(["guard", settings, netlist], " G1 ")
    print(f"{name}: {len(text)} bytes, read {read * 1000:.1f} ms, as far as the words {words * 1000:.1f} ms, with the size {size * 1000:.1f} ms: "
          f"the size takes {max(0, size - words) / read:.2f} times the reading, check and words {max(0, words - read) / read:.2f} times", flush=True)

print(f"{os.cpu_count()} processors")
cipher = open(f"{top}/examples/present80.blif").read()
detect = f"{top}/examples/present80.toml"
count = 1
while not refused(detect, write("copies.blif", copies(cipher, count))):
    count += 1
measure(f"{count} copies of PRESENT-80", detect, f"{work}/copies.blif")
parity = write("parity.toml", 'mode = "detect"\nbound = 1\ncheck = ["1"]\n')
measure("100,000 covers with 4,096 outputs", parity, write("chains.blif", chains(4096, 18, 6, 1696)))
END
