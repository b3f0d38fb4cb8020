#!/bin/sh
# Runs `flat` with its first, second, .. allocation refused, until a run takes no more of them. Each run must end with
# status 5, want of memory, or with the netlist's own status; what it wrote is shown. Needs the kit's command rt.
top=$(CDPATH='' cd -- "$(dirname -- "$0")/.." && pwd) && cd "$top/crates/impeccable_cli" || exit 1
for name in ${*:-empty wires inverter}; do
    n=1
    while :; do
        answer=$(rt try --fail-alloc "$n" --data "$name.blif=$top/examples/$name.blif" -- flat "$name.blif" 2>&1)
        status=$(printf '%s\n' "$answer" | sed -n 's/^checked: ended status=\([0-9]*\).*/\1/p')
        written=$(printf '%s\n' "$answer" | sed '/^allocations:/d; /^checked:/d; /^run=/d; /^interpreter: /d; /^impeccable: /d; /^rt: /d' | wc -c)
        echo "$name.blif, allocation $n refused: status $status, about $written bytes written"
        [ "$status" = 5 ] || break
        n=$((n + 1))
    done
done
