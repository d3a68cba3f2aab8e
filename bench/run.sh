#!/usr/bin/env bash
# Measures `link` and `show` over big captures: first that what they print is right, then their times beside those of `cat`,
# of a tight C program and of `tcpdump` over the same files, and their peak memory; and in the same way `check` over the
# greatest domain, and `strip` with many flows and with one. The words name pairs of captures, or are `domain` or `flows`;
# without any all are measured. Status 0 where all that was printed is right, whether or not a target is met.
set -u

. "$(dirname -- "$(readlink -f -- "${BASH_SOURCE[0]}")")/prepare.sh" captures spawn tight

exec python3 "$here/measure.py" "$program" "$out" "$top/examples/make/network.py" "$@"
