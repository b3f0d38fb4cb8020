#!/bin/sh
# Measures the check of sources: files of 100,000, 200,000 and 400,000 `.names` in reversed order, rings of 100,000 and 200,000, and
# chains of 16 models with 5,000 and 10,000 statements each. Processor seconds of the reading, the best of five runs, and of one of ten
# checks, and the peak memory of one for each byte of input. A program of its own does it, in a copy of the crates that goes away.
# The figures of one run go together, since machines are noisy. Needs python3 and the kit's command rt.
top=$(CDPATH='' cd -- "$(dirname -- "$0")/.." && pwd) && work=$(mktemp -d) || exit 1
trap 'rm -rf "$work"' EXIT
crates='netlist_spec gate_net imp_text reduction linear_layer sbox_table blif_read line_order main_check net_graph net_order
    source_laws refusal_laws source_nets source_tests source_placements source_models source_loops source_cost source_check'
mkdir "$work/crates" && cp "$top/HANDLES" "$work" && cd "$work/crates" || exit 1
for crate in $crates; do
    mkdir "$crate" && (cd "$top/crates/$crate" && tar cf - --exclude=./out .) | (cd "$crate" && tar xf -) || exit 1
    grep -E "^$crate:" "$top/crates.txt" >>"$work/crates.txt"
done
echo 'check_figures: netlist_spec blif_read sbox_table linear_layer source_check' >>"$work/crates.txt"
mkdir -p check_figures/src && cd check_figures || exit 1
cat >src/main.rt <<'END'
//! Reads a netlist from standard input, and checks it once for each word.
#![tactic(auto)]

use blif_read::read;
use source_check::{ElabFault, check};
use std::env;
use std::io;
use std::io::Read;

const LONGEST_TEXT: usize = 268_435_456;

fn loop_length(fault: &ElabFault) -> u32 {
    match fault {
        ElabFault::Loop(nets) => nets.len(),
        _ => 0,
    }
}

fn main(rt: HostRuntime) -> io::Result<()> {
    let alloc = rt.alloc();
    let words = env::args(&rt)?.count();
    let mut text = Vec::new(alloc);
    rt.stdin().read_to_end(&mut text)?;
    if text.len() > LONGEST_TEXT {
        return println!(rt; "too long");
    }
    let Ok(file) = read(alloc, &text) else {
        return println!(rt; "unread");
    };
    for _ in 1..words {
        match check(alloc, &file, &[], &[]) {
            Ok(_checked) => println!(rt; "sound")?,
            Err(fault) => {
                let count = loop_length(&fault);
                println!(rt; "refused with a loop of {count} nets")?
            }
        }
    }
    Ok(())
}
END
echo 'unread' >stdout
touch stdin
if ! rt run >report 2>&1; then
    cat report >&2
    exit 1
fi
cd "$work" || exit 1
exec python3 - "$work/crates/check_figures/out/check_figures" "$work" <<'END'
import os, subprocess, sys

program, work = sys.argv[1:]

def reversed_names(f, count):
    # A cover without rows costs least, so that 400,000 of them stay within the limits of a source.
    f.write(".model m\n.inputs i\n.outputs n0\n")
    f.writelines(f".names i n{n + 1} n{n}\n" for n in range(count - 1))
    f.write(f".names i n{count - 1}\n.end\n")

def ring(f, count):
    f.write(".model m\n")
    f.writelines(f".names n{(n + 1) % count} n{n}\n1 1\n" for n in range(count))
    f.write(".end\n")

def models(f, count):
    for k in range(16):
        f.write(f".model m{k}\n.inputs i\n.outputs n0\n")
        f.writelines(f".names i n{n + 1} n{n}\n" for n in range(count - 1))
        f.write(f".subckt m{k + 1} i=i n0=n{count - 1}\n.end\n" if k < 15 else f".names i n{count - 1}\n.end\n")

def run(path, words):
    best, peak = None, 0
    for _ in range(5):
        process = subprocess.Popen([program, *words], stdin=open(path), stdout=open(f"{work}/told", "w"))
        _, status, usage = os.wait4(process.pid, 0)
        if status:
            sys.exit(f"{path}: status {status}")
        seconds = usage.ru_utime + usage.ru_stime
        best = seconds if best is None else min(best, seconds)
        peak = max(peak, usage.ru_maxrss * 1024)
    return best, peak, open(f"{work}/told").read().split("\n")[0]

print(f"{os.cpu_count()} processors")
for name, make, counts in [("reversed .names", reversed_names, [100000, 200000, 400000]), ("ring", ring, [100000, 200000]), ("16 models", models, [5000, 10000])]:
    before = None
    for count in counts:
        path = f"{work}/netlist.blif"
        with open(path, "w") as f:
            make(f, count)
        size = os.path.getsize(path)
        reading, _, _ = run(path, [])
        _, peak, told = run(path, ["check"])
        seconds = (run(path, ["check"] * 10)[0] - reading) / 10
        line = f"{name}, {count}: {told}; {size} bytes, read in {reading:.3f} s, checked in {seconds:.3f} s, {peak / size:.1f} bytes of memory for each byte"
        if before:
            line += f"; the check takes {seconds / before:.2f} times as long as that of half of it"
        before = seconds
        print(line, flush=True)
END
