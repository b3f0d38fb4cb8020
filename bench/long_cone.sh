#!/bin/sh
# How long copy_xor takes for two cones, a chain of 100,000 inverters and a tree of gates that add 131,072 inverters pair by
# pair (100,000 and 262,143 gates): one call each, without the building of the source (on one core of a busy machine of
# four 61 ms for the chain, 287 ms for the tree). A program of its own, which is proved and built in a copy of the crates
# that goes away. Needs the kit's command rt.
top=$(CDPATH='' cd -- "$(dirname -- "$0")/.." && pwd) && work=$(mktemp -d) || exit 1
trap 'rm -rf "$work"' EXIT
mkdir "$work/crates" && cp "$top/HANDLES" "$work" && cd "$work/crates" || exit 1
for crate in netlist_spec gate_net cone_split; do
    mkdir "$crate" && (cd "$top/crates/$crate" && tar cf - --exclude=./out .) | (cd "$crate" && tar xf -) || exit 1
done
grep -E '^(netlist_spec|gate_net|cone_split):' "$top/crates.txt" >"$work/crates.txt"
echo 'long_cone: netlist_spec gate_net cone_split' >>"$work/crates.txt"
mkdir -p long_cone/src && cd long_cone || exit 1
mkdir -p proofs/chain proofs/inverters proofs/tree proofs/copy_last || exit 1
cat >src/main.rt <<'END'
//! Times of the copies of two cones.
#![tactic(auto)]

ghost use Rattle.std.specs.Prelude.{◌≡◌, ◌+◌, ◌<◌, IfOk};
ghost use Rattle.gate_net.specs.GateNet.{net_count};

use cone_split::{cones_have_one_size, copy_xor};
use gate_net::{Gate, GateNet, NetId, Op};
use std::alloc::{AllocError, Global};
use std::io;
use std::time::Instant;

// Each inverter reads the one in front of it.
fn chain(alloc: Global, count: u32) -> Result<GateNet, AllocError>
    requires { count < 1000000 }
    ensures { IfOk result (λ net. (net.leaves ≡ 1) × (net_count net ≡ count + 1)) }
{
    let mut net = GateNet::new(alloc, 1)?;
    for i in 0..count {
        net.push(Gate::One { inv: true, a: NetId(i) })?;
    }
    Ok(net)
}

// Inverters that all read the one leaf.
fn inverters(alloc: Global, count: u32) -> Result<GateNet, AllocError>
    requires { count < 1000000 }
    ensures { IfOk result (λ net. (net.leaves ≡ 1) × (net_count net ≡ count + 1)) }
{
    let mut net = GateNet::new(alloc, 1)?;
    for i in 0..count {
        net.push(Gate::One { inv: true, a: NetId(0) })?;
    }
    Ok(net)
}

// The inverters, nets 1 to count, and behind them gates that add nets 1 and 2, nets 3 and 4 and so on, down to one.
fn tree(alloc: Global, count: u32) -> Result<GateNet, AllocError>
    requires some { 0 < count }
    requires few { count < 1000000 }
    ensures { IfOk result (λ net. (net.leaves ≡ 1) × (net_count net ≡ count + count)) }
{
    let mut net = inverters(alloc, count)?;
    for i in 0..count - 1 {
        let gate = Gate::Two { op: Op::XOR, a: NetId(2 * i + 1), b: NetId(2 * i + 2) };
        net.push(gate)?;
    }
    Ok(net)
}

// Copies the cone of the last net.
fn copy_last(alloc: Global, src: &GateNet, dst: &mut GateNet) -> Result<NetId, AllocError>
    requires leaf { src.now.leaves ≡ 1 }
    requires few { net_count src.now < 2000001 }
    requires empty { net_count dst.old ≡ 1 }
    requires last { 0 < net_count src.now }
{
    cones_have_one_size();
    let root = NetId(src.len() - 1);
    copy_xor(alloc, src, &[root], &[NetId(0)], dst)
}

fn main(rt: HostRuntime) -> io::Result<()> {
    let alloc = rt.alloc();
    let src = chain(alloc, 100000)?;
    let mut dst = GateNet::new(alloc, 1)?;
    let start = Instant::now(&rt)?;
    copy_last(alloc, &src, &mut dst)?;
    let time = start.elapsed(&rt)?.as_micros();
    let gates = dst.len().saturating_sub(1);
    println!(rt; "a chain of 100,000 inverters: {gates} gates, {time} microseconds")?;
    let src = tree(alloc, 131072)?;
    let mut dst = GateNet::new(alloc, 1)?;
    let start = Instant::now(&rt)?;
    copy_last(alloc, &src, &mut dst)?;
    let time = start.elapsed(&rt)?.as_micros();
    let gates = dst.len().saturating_sub(1);
    println!(rt; "a tree over 131,072 inverters: {gates} gates, {time} microseconds")
}
END
for name in chain inverters tree; do
    start=l.i
    if [ "$name" = tree ]; then start='l.count + l.i'; fi
    cat >proofs/$name/Invariants.antt <<END
use Rattle.std.proofs.Common.{◌≡◌, ◌+◌}
use Rattle.gate_net.specs.GateNet.{net_count}
use Rattle.long_cone.proofs.$name.Given as goal

abbrev pub invariant-loop-i : goal.invariant-loop-i
invariant-loop-i l = (l.net.leaves ≡ 1) × (net_count l.net ≡ $start + 1)
END
done
cat >proofs/copy_last/Answers.antt <<'END'
use Rattle.std.proofs.Common.{arith}
use Rattle.long_cone.proofs.copy_last.Goals as goal

pub copy_xor-requires-clause-room : goal.copy_xor-requires-clause-room
copy_xor-requires-clause-room c = λ size is_size.
    let within = c.cones_have_one_size.ensures.within c.args.src.now _ size is_size in
    let few = c.requires.few in
    let empty = c.requires.empty in
    omega arith
END
touch proofs/Lib.antt stdin
rt run 2>&1 | grep -E '^a |: error|no proof'
