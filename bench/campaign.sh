#!/bin/sh
# Measures `campaign` on the cipher PRESENT-80, guarded with the code of distance 4, on 40 cycles: processor seconds of one run that tries all single faults of a cycle, for the
# cycles that are given as words, else 0, 8 and 32. Beside it stands what `sim` needs for as many cycles of the guard's text, two for each cell and each cycle from the fault on,
# by its rate on a long stimulus in the same run; the bar is 1.2 times that. A run of `campaign` may end before its last cycle, so it can take less. The five lines and the text
# behind them are compared with the guard's. Then `demo 1`, whose bar is one second. It runs the program of the variable IMPECCABLE, where that is set, and else the proved one.
# The figures of one run go together, since machines are noisy. Needs python3.
top=$(CDPATH='' cd -- "$(dirname -- "$0")/.." && pwd) && cd "$top" || exit 1
work=$(mktemp -d) || exit 1
trap 'rm -rf "$work"' EXIT
[ -n "$IMPECCABLE" ] || ./impeccable >/dev/null 2>&1
python3 - "$top" "$work" "${IMPECCABLE:-$top/crates/impeccable_cli/out/impeccable_cli}" "$@" <<'END'
import os, subprocess, sys

top, work, program = sys.argv[1:4]
cycles = [int(word) for word in sys.argv[4:]] or [0, 8, 32]
COUNT, LONG = 40, 40000

def write(name, text):
    with open(f"{work}/{name}", "w") as f:
        f.write(text)
    return f"{work}/{name}"

def run(words, times=3):
    # processor seconds, the best of so many runs, and the text that was written
    best = None
    for _ in range(times):
        with open(f"{work}/out", "w") as out:
            process = subprocess.Popen([program, *words], stdout=out)
            _, status, usage = os.wait4(process.pid, 0)
        if status:
            sys.exit(f"{words}: status {os.waitstatus_to_exitcode(status)}")
        seconds = usage.ru_utime + usage.ru_stime
        best = seconds if best is None else min(best, seconds)
    with open(f"{work}/out") as out:
        return best, out.read()

def numbers(text, words):
    # lines of these words, each with a number, and what stands behind them
    *lines, rest = text.split("\n", len(words))
    pairs = [line.split(" ") for line in lines]
    if [pair[0] for pair in pairs] != words:
        sys.exit(f"no lines {words} but {lines}")
    return [int(pair[1]) for pair in pairs], rest

TALLY = ["cells", "right", "alarmed", "decoded", "wrong"]

def check(tally, cells):
    if tally[0] != cells or sum(tally[1:]) != 2 * cells or tally[3:] != [0, 0]:
        sys.exit(f"the tally {tally} of {cells} cells")
    return f"{cells} cells, right {tally[1]}, alarmed {tally[2]}"

print(f"{os.cpu_count()} processors")
pair = [f"{top}/examples/present80.toml", f"{top}/examples/present80.blif"]
with open(f"{top}/examples/present80.stimulus") as f:
    rows = [line for line in f if line.split("#")[0].strip()][:COUNT]
stimulus = write("stimulus", "".join(rows))
making, guard = run(["guard", *pair])
cells = guard.count("\n.names ") + guard.count("\n.latch ")
netlist, none = write("guard.blif", guard), write("none", "")
idle, _ = run(["sim", netlist, none, none])
used, _ = run(["sim", netlist, write("long", "".join(rows * (LONG // COUNT))), none])
rate = LONG // COUNT * len(rows) / (used - idle)
print(f"PRESENT-80: guarded in {making:.3f} s, its text read in {idle:.3f} s; sim without the reading: {rate:.0f} cycles a second", flush=True)
for cycle in cycles:
    seconds, text = run(["campaign", *pair, stimulus, str(cycle)], 1)
    tally, rest = numbers(text, TALLY)
    if rest != guard:
        sys.exit("behind the five lines stands another text than the guard's")
    runs = 2 * cells * max(0, len(rows) - cycle)
    beside = f"{seconds * rate / runs:.3f} times the {runs / rate:.1f} s of sim for {runs} cycles" if runs else "no cycles to run"
    print(f"faults of cycle {cycle} of {len(rows)}: {check(tally, cells)}, {seconds:.3f} s, {beside}", flush=True)
seconds, text = run(["demo", "1"])
sizes, _ = numbers(text, ["statements", "latches", "plain"] + TALLY)
print(f"demo 1: {check(sizes[3:], sizes[3])}, {seconds:.3f} s")
END
