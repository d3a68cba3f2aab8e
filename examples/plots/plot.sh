#!/usr/bin/env bash
# plot.sh TABLE FOLDER: draws TABLE, a loss table that `audit` printed, into FOLDER, which is made where it is missing.
# loss.svg has the packets that were lost in each block, and delay.svg the mean delay of a packet. It needs python3, and
# gnuplot 5.4 or newer (Debian package gnuplot-nox). Status 0: both were drawn. 2: the words are wrong. 3: TABLE is no
# loss table, or a picture can't be drawn or written. 4: gnuplot isn't installed.
set -u

here=$(dirname -- "$(readlink -f -- "${BASH_SOURCE[0]}")")
if [[ $# != 2 ]]; then
    echo 'plot.sh TABLE FOLDER: TABLE is what `altmark audit` printed' >&2
    exit 2
fi
if ! command -v gnuplot >/dev/null; then
    echo "plot.sh: no picture was drawn: gnuplot isn't installed (Debian package gnuplot-nox)" >&2
    exit 4
fi
mkdir -p -- "$2" || exit 3
for kind in loss delay; do
    text=$(python3 "$here/panels.py" "$1" "$kind") || exit 3
    picture=$(gnuplot -d <<<"$text") || exit 3
    # Groups in which nothing is drawn make a third of what gnuplot writes.
    sed -z 's/<g [^>]*>\n<\/g>\n//g' <<<"$picture" >"$2/$kind.svg" || exit 3
done
