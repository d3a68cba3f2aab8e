#!/usr/bin/env bash
# point.sh PROGRAM DOMAIN NODE: the job of one point. It runs in the folder that has the point's capture, and leaves
# there NODE.csv, the report. That name is given only to a whole report, so a job that was cut off has none. NODE.line
# gets the line that the program wrote where there is none. The status is the program's.
set -u

program=$1 domain=$2 node=$3
rm -f -- "./$node.csv"
"$program" meter "$domain" "$node" >"./$node.part" 2>"./$node.line"
got=$?
if [[ $got == 0 ]]; then
    mv -- "./$node.part" "./$node.csv" || got=6
fi
[[ $got == 0 ]] || cat -- "./$node.line" >&2
exit "$got"
