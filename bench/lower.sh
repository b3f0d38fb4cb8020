#!/bin/sh
# How many cells an S-box of 8 inputs and 8 outputs and a cover of 16 inputs and 1,000 rows are lowered to, and how long
# it takes (on one core of a shared machine 8,494 cells in 0.3 ms for the cover, 1,535 cells in 0.02 ms for the table): a
# program of its own, in a copy of the crates that goes away. Needs the kit's command rt.
top=$(CDPATH='' cd -- "$(dirname -- "$0")/.." && pwd) && work=$(mktemp -d) || exit 1
trap 'rm -rf "$work"' EXIT
mkdir "$work/crates" && cp "$top/HANDLES" "$work" && cd "$work/crates" || exit 1
for crate in netlist_spec gate_net imp_text reduction cover sbox_table; do
    mkdir "$crate" && (cd "$top/crates/$crate" && tar cf - --exclude=./out .) | (cd "$crate" && tar xf -) || exit 1
done
grep -E '^(netlist_spec|gate_net|imp_text|reduction|cover|sbox_table):' "$top/crates.txt" >"$work/crates.txt"
echo 'lower_figures: netlist_spec gate_net imp_text cover sbox_table' >>"$work/crates.txt"
mkdir -p lower_figures/src lower_figures/proofs/cover_rows && cd lower_figures || exit 1
cat >src/main.rt <<'END'
//! Figures of two lowerings.
#![tactic(auto)]

ghost use Rattle.std.specs.Prelude.{◌≡◌, IfOk, length};

use gate_net::{GateNet, NetId};
use imp_text::{Cover, Row};
use sbox_table::Table;
use std::alloc::{AllocError, Global};
use std::io;
use std::time::Instant;

// 1,000 rows, by a generator of random numbers.
fn cover_rows(alloc: Global) -> Result<Vec<Row>, AllocError>
    ensures { IfOk result (λ rows. length rows.items ≡ 1000) }
{
    let mut rows = Vec::new(alloc);
    let mut word = 1u16;
    for i in 0..1000u32 {
        let care = word.wrapping_mul(25173).wrapping_add(13849);
        word = care.wrapping_mul(25173).wrapping_add(13849);
        rows.push(Row { care, value: care & word })?;
    }
    Ok(rows)
}

// A permutation of 0 to 255.
fn table_rows(alloc: Global) -> Result<Vec<u16>, AllocError> {
    let mut rows = Vec::new(alloc);
    for n in 0..256u16 {
        rows.push(n.wrapping_mul(7).wrapping_add(3) & 255)?;
    }
    Ok(rows)
}

fn main(rt: HostRuntime) -> io::Result<()> {
    let alloc = rt.alloc();
    let low = [NetId(0), NetId(1), NetId(2), NetId(3), NetId(4), NetId(5), NetId(6), NetId(7)];
    let all = [
        NetId(0), NetId(1), NetId(2), NetId(3), NetId(4), NetId(5), NetId(6), NetId(7),
        NetId(8), NetId(9), NetId(10), NetId(11), NetId(12), NetId(13), NetId(14), NetId(15),
    ];
    let cover = Cover { on: true, rows: cover_rows(alloc)? };
    let mut net = GateNet::new(alloc, 16)?;
    let start = Instant::now(&rt)?;
    cover::lower(&cover, &all, &mut net)?;
    let time = start.elapsed(&rt)?.as_micros();
    let cells = net.len().saturating_sub(16);
    println!(rt; "a cover of 16 inputs and 1,000 rows: {cells} cells, {time} microseconds")?;
    if let Some(table) = Table::new(8, 8, table_rows(alloc)?) {
        let mut net = GateNet::new(alloc, 8)?;
        let start = Instant::now(&rt)?;
        sbox_table::lower(alloc, &table, &low, &mut net)?;
        let time = start.elapsed(&rt)?.as_micros();
        let cells = net.len().saturating_sub(8);
        println!(rt; "a table of 8 inputs and 8 outputs: {cells} cells, {time} microseconds")?;
    }
    Ok(())
}
END
cat >proofs/cover_rows/Invariants.antt <<'END'
use Rattle.std.proofs.Common.{◌≡◌, length}
use Rattle.lower_figures.proofs.cover_rows.Given as goal

abbrev pub invariant-loop-i : goal.invariant-loop-i
invariant-loop-i l = length l.rows.items ≡ l.i
END
touch proofs/Lib.antt stdin
if rt run >report 2>&1; then
    grep '^a ' report
else
    cat report >&2
    exit 1
fi
