#!/bin/sh
# Lets the peer ABC check some flat netlists against their sources: with the latches as ports, outputs and next states must be
# equal. What the latches start with isn't compared.
# `wires.blif` and `empty.blif` have no cell: ABC aborts on the first by itself, and finds nothing to compare in the second.
# Skipped where ABC isn't installed (Debian: berkeley-abc).
top=$(CDPATH='' cd -- "$(dirname -- "$0")/.." && pwd) && cd "$top" || exit 1
abc=$(command -v berkeley-abc || command -v abc) || { echo "ABC is not installed: skipped"; exit 0; }
work=$(mktemp -d) || exit 1
trap 'rm -rf "$work"' EXIT
failed=0
for source in ${*:-examples/inverter.blif examples/counter.blif examples/covers.blif examples/shared.blif examples/present80.blif}; do
    if ! ./impeccable flat "$source" >"$work/flat.blif" 2>"$work/told"; then
        echo "$source: $(cat "$work/told")"
        failed=1
        continue
    fi
    told=$("$abc" -q "cec $source $work/flat.blif" 2>&1)
    case $told in
        *"are equivalent"*) echo "$source: equivalent" ;;
        *) echo "$source: $told"; failed=1 ;;
    esac
done
exit $failed
