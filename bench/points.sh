#!/usr/bin/env bash
# Measures `meter`, `audit`, `mark` and `strip` over the captures of a domain's two points: first that what they print is
# right, then their times beside those of `cat`, of tight C and of `tcpdump` over the same files, and their peak memory. The
# words name sets of captures; without any all are measured. Status 0 where all that was printed is right, whether or not a
# target is met.
set -u

. "$(dirname -- "$(readlink -f -- "${BASH_SOURCE[0]}")")/prepare.sh" points spawn yardstick

exec python3 "$here/points.py" "$program" "$out" "$@"
