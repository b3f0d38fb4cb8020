#!/bin/sh
# Lets the peer ABC check guards against their sources, one cycle for all states and inputs: where each state word is the codeword of the source's state, the guard's first
# outputs are the source's, all rails (in detection) are 0, each output word is a codeword, and each next state word is the codeword of the source's next state. With the
# inits, which are compared too, this is equality in every cycle of every stream. Skipped where ABC isn't installed (Debian: berkeley-abc). Needs python3.
top=$(CDPATH='' cd -- "$(dirname -- "$0")/.." && pwd) && cd "$top" || exit 1
abc=$(command -v berkeley-abc || command -v abc) || { echo "ABC is not installed: skipped"; exit 0; }
work=$(mktemp -d) || exit 1
trap 'rm -rf "$work"' EXIT
failed=0
detected="examples/inverter.toml:examples/inverter.blif examples/detect.toml:examples/counter.blif examples/present80.toml:examples/present80.blif"
corrected="examples/correct.toml:examples/inverter.blif examples/correct.toml:examples/counter.blif examples/correct.toml:examples/present80.blif"
for pair in ${*:-$detected $corrected}; do
    settings=${pair%%:*} source=${pair#*:}
    if ! ./impeccable guard "$settings" "$source" >"$work/guard.blif" 2>"$work/told" || ! ./impeccable flat "$source" >"$work/flat.blif" 2>"$work/told"; then
        echo "$pair: $(cat "$work/told")"
        failed=1
        continue
    fi
    python3 - "$settings" "$work" <<'END' || { echo "$pair: inits differ"; failed=1; continue; }
import re, sys

settings, work = sys.argv[1:]
rows = re.findall(r'"([01]+)"', re.search(r"check\s*=\s*\[(.*?)\]", open(settings).read(), re.S).group(1))
k, r = len(rows), len(rows[0])

def parts(path):
    ports, latches, cells = {".inputs": [], ".outputs": []}, [], []
    for line in open(path):
        words = line.split("#")[0].split()
        if not words:
            continue
        if words[0] in ports:
            ports[words[0]] += words[1:]
        elif words[0] == ".latch":
            latches.append((words[1], words[2], words[-1], words[4] if len(words) > 4 else None))
        elif words[0] == ".names" or words[0][0] != ".":
            cells.append(line)
    clocks = {c for _, _, _, c in latches}
    return [n for n in ports[".inputs"] if n not in clocks], ports[".outputs"], latches, cells

def added(nets, out):
    # the sum of some nets, as two-input cells
    lines, last = [], None
    for i, n in enumerate(nets):
        name = out if i == len(nets) - 1 else f"{out}_{i}"
        lines.append(f".names {n} {name}\n1 1\n" if last is None else f".names {last} {n} {name}\n01 1\n10 1\n")
        last = name
    return lines or [f".names {out}\n"]

def words(nets):
    return [nets[i:i + k] for i in range(0, len(nets), k)]

inputs, outputs, latches, cells = parts(f"{work}/flat.blif")
store = [f"latch:{i}" for i in range(len(latches))]
with open(f"{work}/a.blif", "w") as f:
    shows = [f"show:{i}" for i in range(len(outputs))] + [f"next:{i}" for i in range(len(latches))]
    f.write(".model a\n.inputs " + " ".join(inputs + store) + "\n.outputs " + " ".join(shows + ["zero"]) + "\n")
    f.writelines([f".names {n} {q}\n1 1\n" for n, (_, q, _, _) in zip(store, latches)] + cells + [f".names {o} show:{i}\n1 1\n" for i, o in enumerate(outputs)] + [f".names {d} next:{i}\n1 1\n" for i, (d, _, _, _) in enumerate(latches)] + [".names zero\n.end\n"])
_, shown, places, cells = parts(f"{work}/guard.blif")
lines, bad, inits = [], [], [init == "1" for _, _, init, _ in latches]
at = first = 0
nexts = []
for w in words(store):
    here, start = places[at:at + len(w) + r], inits[first:first + len(w)]
    for i, n in enumerate(w):
        lines.append(f".names {n} {here[i][1]}\n1 1\n")
        nexts.append(here[i][0])
        if (here[i][2] == "1") != start[i]:
            sys.exit(1)
    for j in range(r):
        lines += added([n for n, row in zip(w, rows) if row[j] == "1"], here[len(w) + j][1])
        bad.append((here[len(w) + j][0], [here[i][0] for i in range(len(w)) if rows[i][j] == "1"]))
        if (here[len(w) + j][2] == "1") != (sum(b for b, row in zip(start, rows) if row[j] == "1") % 2 == 1):
            sys.exit(1)
    at, first = at + len(w) + r, first + len(w)
p, m = len(outputs), len(words(outputs))
for i, w in enumerate(words(shown[:p])):
    for j in range(r):
        bad.append((shown[p + i * r + j], [n for n, row in zip(w, rows) if row[j] == "1"]))
wrong = shown[p + m * r:]
for i, (check, nets) in enumerate(bad):
    lines += added([check] + nets, f"wrong:{i}")
    wrong.append(f"wrong:{i}")
for i, n in enumerate(wrong):
    lines.append(f".names {n} any:{i}\n1 1\n" if i == 0 else f".names any:{i - 1} {n} any:{i}\n1- 1\n-1 1\n")
with open(f"{work}/b.blif", "w") as f:
    f.write(".model a\n.inputs " + " ".join(inputs + store) + "\n.outputs " + " ".join(shows + ["zero"]) + "\n")
    f.writelines(lines + cells + [f".names {o} show:{i}\n1 1\n" for i, o in enumerate(shown[:p])] + [f".names {d} next:{i}\n1 1\n" for i, d in enumerate(nexts)] + [f".names any:{len(wrong) - 1} zero\n1 1\n.end\n"])
END
    told=$("$abc" -q "cec $work/a.blif $work/b.blif" 2>&1)
    case $told in
        *"are equivalent"*) echo "$pair: equal" ;;
        *) echo "$pair: $told"; failed=1 ;;
    esac
done
exit $failed
