#!/bin/sh
# Tries each count of a netlist at its limit and one past it, one at a time: past a limit of the language the answer is `B7`,
# past one of a source it is `E11`. Ends with status 1 where an answer is another. Needs python3.
top=$(CDPATH='' cd -- "$(dirname -- "$0")/.." && pwd) && cd "$top" || exit 1
work=$(mktemp -d) || exit 1
trap 'rm -rf "$work"' EXIT
./impeccable >/dev/null 2>&1
python3 - "$top/crates/impeccable_cli/out/impeccable_cli" "$work/netlist.blif" <<'END'
import subprocess, sys

program, path = sys.argv[1:]
failed = 0

def names(count, front="n"):
    return " ".join(f"{front}{k}" for k in range(count))

def expect(what, lines, told):
    global failed
    with open(path, "w") as f:
        f.write(".model m\n" + lines)
    ran = subprocess.run([program, "flat", path], stdout=subprocess.DEVNULL, stderr=subprocess.PIPE)
    answer = ran.stderr.decode().removeprefix("impeccable: ").strip() or "Done"
    failed |= answer != told
    print(f"{what}: {answer}" + ("" if answer == told else f", and not {told}"), flush=True)

MOST, STATEMENTS = 131072, 2000000
for keyword, count, within in [("inputs", "inputs", "E11 too large inputs"), ("outputs", "outputs", "E7 undriven n0"), ("clock", "clocks", "Done")]:
    for more in [0, 1]:
        told = "B7 line 3 too many " + count if more else within
        expect(f"{MOST + more} {count}", f".{keyword} {names(MOST - 1)}\n.{keyword} {names(1 + more, 'm')}\n", told)
for more in [0, 1]:
    latches = ".inputs a\n" + "".join(f".latch a q{k} 0\n" for k in range(MOST + more))
    expect(f"{MOST + more} latches", latches, f"B7 line {MOST + 3} too many latches" if more else "E11 too large latches")
for more in [0, 1]:
    statements = "".join(f".names y{k}\n" for k in range(STATEMENTS + more))
    expect(f"{STATEMENTS + more} statements", statements, f"B7 line {STATEMENTS + 2} too many statements" if more else "E11 too large source")
for more in [0, 1]:
    expect(f"{16 + more} inputs of a cover", f".inputs {names(17)}\n.names {names(16 + more)} y\n", "B7 line 3 too many cover" if more else "Done")
for more in [0, 1]:
    def told(what):
        return "E11 too large " + what if more else "Done"
    expect(f"{4096 + more} data inputs", f".inputs {names(4096 + more)}\n", told("inputs"))
    expect(f"{4096 + more} outputs", "".join(f".names n{k}\n" for k in range(4096 + more)) + f".outputs {names(4096 + more)}\n", told("outputs"))
    expect(f"{4096 + more} latches", ".inputs a\n" + "".join(f".latch a q{k} 0\n" for k in range(4096 + more)), told("latches"))
    expect(f"a cost of {1000000 + 2 * more}", "".join(f".names y{k}\n" for k in range(500000 + more)), told("source"))
sys.exit(failed)
END
