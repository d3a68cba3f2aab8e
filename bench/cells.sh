#!/usr/bin/env bash
# Measures `meter`, `loss` and `audit` where there are as many cells as there may be: over two nodes, and over as many
# nodes and links as there may be. First that what they print is right, then their times beside those of `cat` and of
# tight C, and their peak memory. The words name sets, `two` or `net`; without any both are measured. Status 0 where all
# that was printed is right, whether or not a target is met.
set -u

. "$(dirname -- "$(readlink -f -- "${BASH_SOURCE[0]}")")/prepare.sh" mesh points spawn yardstick

exec python3 -B "$here/cells.py" "$program" "$out" "$@"
