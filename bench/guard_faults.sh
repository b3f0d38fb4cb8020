#!/bin/sh
# Tries guards by a small simulator of its own in Python: for the inverter, the counter, PRESENT-80 and random sources, in detection and in correction, it compares the guard
# with the source on random streams, without faults and with random faults of `bound` cells, in one cycle or, the same cells, in several. In detection it stops at the first wrong
# output that no rail tells and at a rail that is up without faults; in correction at the first output word that differs from the codeword of the source's outputs in more than
# `bound` places, and at any wrong output in a cycle without faulty cells; in both at a cell that serves two bits. It prints for each guard how often all outputs were right.
# Where Icarus Verilog is installed, it also tries examples/decoder.v on all 16 data words with no or one wrong place. Needs python3.
top=$(CDPATH='' cd -- "$(dirname -- "$0")/.." && pwd) && cd "$top" || exit 1
work=$(mktemp -d) || exit 1
trap 'rm -rf "$work"' EXIT
./impeccable >/dev/null 2>&1
exec python3 - "$top" "$work" "${1:-40}" "${2:-1}" <<'END'
import random, re, shutil, subprocess, sys

top, work, count, seed = sys.argv[1], sys.argv[2], int(sys.argv[3]), int(sys.argv[4])
random.seed(seed)

class Netlist:
    # One model of BLIF without placed models. A cell is a list of inputs with the set of input words for which it is 1.
    def __init__(self, text):
        self.inputs, self.outputs, self.latches, self.cells, clocks = [], [], [], {}, set()
        name = None
        lines = text.replace("\\\n", " ").split("\n")
        for line in lines:
            words = line.split("#")[0].split()
            if not words:
                continue
            if words[0] == ".inputs":
                self.inputs += words[1:]
            elif words[0] == ".outputs":
                self.outputs += words[1:]
            elif words[0] == ".clock":
                clocks.update(words[1:])
            elif words[0] == ".latch":
                if len(words) > 4:
                    clocks.add(words[4])
                self.latches.append((words[1], words[2], words[-1] == "1"))
            elif words[0] == ".names":
                name = words[-1]
                self.cells[name] = (words[1:-1], [], [])
            elif words[0][0] != ".":
                row = words if self.cells[name][0] else [""] + words
                self.cells[name][1 if row[1] == "1" else 2].append(row[0])
        self.inputs = [n for n in self.inputs if n not in clocks]
        self.order = self.sort()

    def sort(self):
        order, done = [], set(self.inputs) | {q for _, q, _ in self.latches}
        for root in list(self.cells):
            stack = [root]
            while stack:
                n = stack[-1]
                if n in done:
                    stack.pop()
                    continue
                waits = [k for k in self.cells[n][0] if k not in done]
                if waits:
                    stack += waits
                else:
                    done.add(n)
                    order.append(n)
                    stack.pop()
        return order

    def cycle(self, state, x, faults):
        v = dict(zip(self.inputs, x))
        for (_, q, _), bit in zip(self.latches, state):
            v[q] = faults.get(q, bit)
        for n in self.order:
            ins, on, off = self.cells[n]
            word = [v[k] for k in ins]
            fits = lambda row: all(c == "-" or (c == "1") == b for c, b in zip(row, word))
            own = any(map(fits, on)) if not off else not any(map(fits, off))
            v[n] = faults.get(n, own)
        return [v[o] for o in self.outputs], [v[d] for d, _, _ in self.latches]

    def run(self, stream, faults={}):
        # the faults of a cycle stand under its number
        state, outs = [bit for _, _, bit in self.latches], []
        for c, x in enumerate(stream):
            out, state = self.cycle(state, x, faults.get(c, {}))
            outs.append(out)
        return outs

    def bits(self):
        # For each cell the latches and outputs that it reaches by cells that are no outputs.
        served = {n: set() for n in self.cells}
        for i, (d, q, _) in enumerate(self.latches):
            self.reach(served, d, ("latch", i))
        for i, o in enumerate(self.outputs):
            self.reach(served, o, ("output", i))
        return served

    def reach(self, served, net, bit):
        stack, seen, outputs = [net], set(), set(self.outputs)
        while stack:
            n = stack.pop()
            if n in seen or n not in self.cells:
                continue
            seen.add(n)
            served[n].add(bit)
            stack += [k for k in self.cells[n][0] if k not in outputs]

def random_source(f):
    ins, latches, gates = random.randrange(0, 5), random.randrange(0, 9), random.randrange(1, 25)
    nets = [f"i{k}" for k in range(ins)] + [f"q{k}" for k in range(latches)]
    lines, made = [], []
    for k in range(gates):
        read = random.sample(nets + made, min(len(nets + made), random.randrange(0, 4)))
        rows = {"".join(random.choice("01-") for _ in read) for _ in range(random.randrange(0, 4))}
        bit = random.choice("01")
        lines.append(f".names {' '.join(read + [f'g{k}'])}\n" + "".join(f"{r} {bit}\n" if read else f"{bit}\n" for r in (rows if read else list(rows)[:1])))
        made.append(f"g{k}")
    stores = [random.choice(nets + made) for _ in range(latches)]
    pool = nets + made
    outs = random.sample(pool, min(len(pool), random.randrange(1, 7)))
    f.write(".model r\n.inputs " + " ".join(n for n in nets if n[0] == "i") + "\n.outputs " + " ".join(outs) + "\n")
    f.writelines(f".latch {d} q{k} {random.randrange(3)}\n" for k, d in enumerate(stores))
    random.shuffle(lines)
    f.writelines(lines + [".end\n"])

def distance(rows):
    k, r = len(rows), len(rows[0])
    best = k + r
    for data in range(1, 2 ** k):
        check = 0
        for i in range(k):
            if data >> i & 1:
                check ^= int(rows[i], 2)
        best = min(best, bin(data).count("1") + bin(check).count("1"))
    return best

def random_rows(columns, need):
    while True:
        k, r = random.randrange(1, columns[0]), random.randrange(columns[1], columns[2])
        rows = ["".join(random.choice("01") for _ in range(r)) for _ in range(k)]
        if distance(rows) >= need:
            return rows

def write_settings(path, mode, bound, rows):
    with open(path, "w") as f:
        f.write(f'mode = "{mode}"\nbound = {bound}\ncheck = {str(rows)}\n'.replace("'", '"'))

def settings_in(path):
    text = open(path).read()
    rows = re.findall(r'"([01]+)"', re.search(r"check\s*=\s*\[(.*?)\]", text, re.S).group(1))
    return re.search(r'mode\s*=\s*"(\w+)"', text).group(1), int(re.search(r"bound\s*=\s*(\d+)", text).group(1)), rows

def checks_of(rows, data):
    return [sum(b and row[j] == "1" for b, row in zip(data, rows)) % 2 == 1 for j in range(len(rows[0]))]

def random_faults(cells, bound, cycles):
    # so many cells, in one cycle or in some of them, with any bits
    chosen = random.sample(cells, min(len(cells), bound))
    at = [random.randrange(cycles)] if random.random() < 0.5 else [c for c in range(cycles) if random.random() < 0.5]
    return {c: {n: random.random() < 0.5 for n in chosen} for c in at}

def alarm_fault(guarded, want, rows, bound, faults):
    # in detection: a wrong output without an alarm in its cycle or before
    alarm, p, rails = False, len(want[0]), bound + 1
    for c, (o, w) in enumerate(zip(guarded, want)):
        alarm = alarm or any(o[len(o) - rails:])
        if alarm and not faults:
            return f"cycle {c}: an alarm without faults"
        if o[:p] != w and not alarm:
            return f"cycle {c}: a wrong output without an alarm"

def word_fault(guarded, want, rows, bound, faults):
    # in correction: an output word with more wrong places than the faults of the cycle may leave
    k, r, p = len(rows), len(rows[0]), len(want[0])
    for c, (o, w) in enumerate(zip(guarded, want)):
        for i, first in enumerate(range(0, p, k)):
            data = w[first:first + k]
            shown = o[first:first + len(data)] + o[p + i * r:p + (i + 1) * r]
            apart = sum(a != b for a, b in zip(shown, data + checks_of(rows, data)))
            if apart > (bound if c in faults else 0):
                return f"cycle {c}: {apart} wrong places in output word {i}"

def attempt(name, toml, source, cycles, tries):
    mode, bound, rows = settings_in(toml)
    ran = subprocess.run([f"{top}/crates/impeccable_cli/out/impeccable_cli", "guard", toml, source], capture_output=True)
    if ran.returncode:
        sys.exit(f"{name}: status {ran.returncode}: {ran.stderr.decode()}")
    flat = subprocess.run([f"{top}/crates/impeccable_cli/out/impeccable_cli", "flat", source], capture_output=True).stdout.decode()
    plain, guard = Netlist(flat), Netlist(ran.stdout.decode())
    audit = guard.bits()
    shared = [n for n in audit if len(audit[n]) != 1 or len(guard.cells[n][0]) > 2]
    if shared:
        sys.exit(f"{name}: cell {shared[0]} has the bits {audit[shared[0]]}")
    p = len(plain.outputs)
    many = p + -(-p // len(rows)) * len(rows[0]) + (bound + 1 if mode == "detect" else 0)
    if len(guard.outputs) != many:
        sys.exit(f"{name}: {len(guard.outputs)} outputs, and not {many}")
    cells = list(guard.cells) + [q for _, q, _ in guard.latches]
    find, right = alarm_fault if mode == "detect" else word_fault, 0
    for _ in range(tries):
        stream = [[random.random() < 0.5 for _ in plain.inputs] for _ in range(cycles)]
        want = plain.run(stream)
        for faults in ({}, random_faults(cells, bound, cycles)):
            guarded = guard.run(stream, faults)
            wrong = [o[:p] for o in guarded] != want
            told = find(guarded, want, rows, bound, faults)
            if told or wrong and not faults:
                sys.exit(f"{name}: {told or 'differs without faults'}, under {faults}\n{open(toml).read()}{open(source).read()}")
        right += not wrong
    other = "alarmed" if mode == "detect" else "wrong and within the bound"
    print(f"{name}, {mode}: {len(cells)} cells, bound {bound}, {tries} faulty runs: all outputs right in {right}, {other} in {tries - right}", flush=True)

def try_decoder():
    # a word of the code of correct.toml for each data word, with no or one wrong place; what the decoder must give is the data
    _, _, rows = settings_in(f"{top}/examples/correct.toml")
    bits = lambda row: "".join("01"[b] for b in reversed(row))
    lines = []
    for data in ([i >> j & 1 == 1 for j in range(4)] for i in range(16)):
        word = data + checks_of(rows, data)
        for place in range(-1, 7):
            bad = [b != (i == place) for i, b in enumerate(word)]
            lines.append(f"data = 4'b{bits(bad[:4])}; check = 3'b{bits(bad[4:])}; #1;\n    if (corrected !== 4'b{bits(data)}) $display(\"wrong\"); else $display(\"right\");\n")
    with open(f"{work}/bench.v", "w") as f:
        f.write("module bench;\nreg [3:0] data;\nreg [2:0] check;\nwire [3:0] corrected;\ndecoder under_test(data, check, corrected);\ninitial begin\n" + "".join(lines) + "end\nendmodule\n")
    subprocess.run(["iverilog", "-o", f"{work}/bench", f"{work}/bench.v", f"{top}/examples/decoder.v"], check=True)
    told = subprocess.run(["vvp", "-n", f"{work}/bench"], capture_output=True, check=True).stdout.decode().split()
    if told != ["right"] * 128:
        sys.exit(f"examples/decoder.v: {told.count('right')} of {len(told)} words right")
    print("examples/decoder.v: right on 128 words")

if shutil.which("iverilog"):
    try_decoder()
else:
    print("Icarus Verilog is not installed: examples/decoder.v is skipped")

examples = f"{top}/examples"
with open(f"{work}/two.toml", "w") as f:
    f.write('mode = "correct"\nbound = 2\ncheck = ["1111"]\n')
attempt("inverter", f"{examples}/inverter.toml", f"{examples}/inverter.blif", 4, 400)
attempt("counter", f"{examples}/detect.toml", f"{examples}/counter.blif", 20, 400)
for name, cycles in (("inverter", 4), ("counter", 20)):
    attempt(name, f"{examples}/correct.toml", f"{examples}/{name}.blif", cycles, 400)
    attempt(name, f"{work}/two.toml", f"{examples}/{name}.blif", cycles, 100)
for k in range(count):
    with open(f"{work}/r.blif", "w") as f:
        random_source(f)
    rows = random_rows((5, 1, 6), 2)
    write_settings(f"{work}/r.toml", "detect", random.randrange(1, distance(rows)), rows)
    attempt(f"random source {k}", f"{work}/r.toml", f"{work}/r.blif", 8, 60)
    for bound, columns in ((1, (5, 2, 7)), (2, (3, 4, 8))):
        write_settings(f"{work}/r.toml", "correct", bound, random_rows(columns, 2 * bound + 1))
        attempt(f"random source {k}", f"{work}/r.toml", f"{work}/r.blif", 8, 40 if bound == 1 else 20)
attempt("PRESENT-80", f"{examples}/present80.toml", f"{examples}/present80.blif", 5, 6)
attempt("PRESENT-80", f"{examples}/correct.toml", f"{examples}/present80.blif", 5, 6)
END
