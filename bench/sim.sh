#!/usr/bin/env bash
# Measures `sim` of the twelve points with 200,000 packets, and prints how many seconds it took and its peak memory. Status 0
# where what it printed is right: in each line the reported loss is the true one, and so it is of each pair.
set -u

. "$(dirname -- "$(readlink -f -- "${BASH_SOURCE[0]}")")/prepare.sh" spawn

read -r took peak status < <("$out/spawn" "$out/sim.csv" "$program" sim "$top/examples/twelve/twelve.toml" 7 200000)
if [[ $status != 0 || $(awk -F, 'NR > 1 && $2 == $3 && $4 == $5' "$out/sim.csv" | wc -l) != 6 ]]; then
    echo "bench: sim isn't right: status $status, see $out/sim.csv"
    exit 1
fi
awk -v took="$took" -v peak="$peak" 'BEGIN { printf "%.2f s, peak %.1f MB\n", took / 1e9, peak / 1e6 }'
