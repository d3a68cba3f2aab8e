#!/usr/bin/env bash
# Holds the program against the examples: what it prints, its line on standard error and its status.
# A line for each check that failed, then 'examples: N checks, M failed'. Status 0 only where none failed.
set -u

here=$(dirname -- "$(readlink -f -- "${BASH_SOURCE[0]}")")
top=$(dirname -- "$here")
altmark=$top/altmark
scratch=$(mktemp -d) || exit 1
trap 'rm -rf -- "$scratch"' EXIT

# Scripts leave nothing beside themselves.
export PYTHONDONTWRITEBYTECODE=1

checks=0
failed=0

# tally NAME TRUTH: counts a check, and names one that failed
tally() {
    checks=$((checks + 1))
    if [[ $2 != yes ]]; then
        failed=$((failed + 1))
        printf 'failed: %s%s\n' "$1" "${3:+: $3}"
    fi
}

# expect_file NAME STATUS FILE LINE WORD..: runs the program with these words in the present folder. The bytes of FILE and
# LINE are all that it writes to its two streams; LINE stands without the last line feed.
expect_file() {
    local name=$1 status=$2 output=$3 line=$4 got
    shift 4
    "$altmark" "$@" </dev/null >"$scratch/stdout" 2>"$scratch/stderr"
    got=$?
    if [[ -n $line ]]; then printf '%s\n' "$line"; fi >"$scratch/stderr.wanted"
    if [[ $got != "$status" ]]; then
        tally "$name" no "status $got for $status"
    elif ! cmp -s "$scratch/stdout" "$output"; then
        tally "$name" no "standard output '$(diff "$scratch/stdout" "$output" | head -c 200 | tr '\n' '|')'"
    elif ! cmp -s "$scratch/stderr" "$scratch/stderr.wanted"; then
        tally "$name" no "standard error '$(head -c 200 "$scratch/stderr" | tr '\n' '|')'"
    else
        tally "$name" yes
    fi
}

# expect NAME STATUS OUTPUT LINE WORD..: the same, with OUTPUT in the place of a file, without the last line feed.
expect() {
    local name=$1 status=$2 output=$3 line=$4
    shift 4
    if [[ -n $output ]]; then printf '%s\n' "$output"; fi >"$scratch/stdout.wanted"
    expect_file "$name" "$status" "$scratch/stdout.wanted" "$line" "$@"
}

# refuses NAME WORD..: the words are no command
refuses() {
    local name=$1
    shift
    expect "$name" 2 '' 'altmark: usage' "$@"
}

# write_capture NAME [SECOND CAPTURED MARK]..: a capture of packets from 2001:db8:1::1 to 2001:db8:2::1. Of each stand here its
# second, with a fraction of up to six digits or without, how many of its bytes were captured, and its mark, or - where it has
# none. It has 48 bytes, and 40 without a mark.
write_capture() {
    python3 - "$@" <<'END'
import struct, sys
name, words = sys.argv[1], sys.argv[2:]
ends = "20010db8000100000000000000000001 20010db8000200000000000000000001"
with open(name, "wb") as out:
    out.write(struct.pack("<IHHIIII", 0xA1B2C3D4, 2, 4, 0, 0, 262144, 101))
    for time, captured, mark in zip(*[iter(words)] * 3):
        packet = bytes.fromhex(f"6000000000003b40 {ends}" if mark == "-" else f"6000000000080040 {ends} 3b001204 {mark}")
        second, _, fraction = time.partition(".")
        out.write(struct.pack("<IIII", int(second), int(fraction.ljust(6, "0")), int(captured), len(packet)))
        out.write(packet[: int(captured)])
END
}

# altered FROM TO LENGTH [PLACE BYTE]..: TO is the first bytes of FROM, so many, and at each place stands this byte.
altered() {
    python3 - "$@" <<'END'
import sys
bytes_ = bytearray(open(sys.argv[1], "rb").read()[: int(sys.argv[3])])
for place, byte in zip(sys.argv[4::2], sys.argv[5::2]):
    bytes_[int(place)] = int(byte, 16)
open(sys.argv[2], "wb").write(bytes_)
END
}

head_line=block,in,out,lost
two=("$here/two/u.pcap" "$here/two/v.pcap")
table=$head_line$'\n0,2,2,0\n1,3,2,1\n2,1,1,0'

# The program is built first, so that no check sees what the build says.
cd -- "$top" || exit 1
"$altmark" </dev/null >"$scratch/stdout" 2>"$scratch/stderr"
got=$?
if [[ $got != 2 ]]; then
    cat -- "$scratch/stderr"
    echo "examples: the program can't be run: status $got for 2"
    exit 1
fi

# The files are those that make/captures.py writes, but for the domain files, and what `check`, `meter` and `audit`
# print of them.
python3 "$here/make/captures.py" "$scratch/made"
(cd -- "$scratch/made" && find . -type f | LC_ALL=C sort) >"$scratch/made.list"
(cd -- "$here" && find ./two ./chains ./forms ./mixed ./mark ./split ./bad -type f ! -name README.md ! -name '*.toml' ! -name '*.check' ! -name '*.csv' ! -name '*.audit' ! -name '*.sh' | LC_ALL=C sort) >"$scratch/kept.list"
if cmp -s "$scratch/made.list" "$scratch/kept.list"; then tally 'names of the example files' yes; else tally 'names of the example files' no; fi
while IFS= read -r name; do
    if cmp -s -- "$scratch/made/$name" "$here/$name"; then tally "bytes of $name" yes; else tally "bytes of $name" no; fi
done <"$scratch/made.list"

# The captures of twelve/, and the loss table beside them, are those that make/traffic.py writes.
python3 "$here/make/traffic.py" "$scratch/traffic"
(cd -- "$scratch/traffic" && find . -type f | LC_ALL=C sort) >"$scratch/made.list"
(cd -- "$here/twelve" && find . -name '*.pcap' -o -name '*.audit' | LC_ALL=C sort) >"$scratch/kept.list"
if cmp -s "$scratch/made.list" "$scratch/kept.list"; then tally 'names of the files of twelve/' yes; else tally 'names of the files of twelve/' no; fi
while IFS= read -r name; do
    if cmp -s -- "$scratch/traffic/$name" "$here/twelve/$name"; then tally "bytes of twelve/$name" yes; else tally "bytes of twelve/$name" no; fi
done <"$scratch/made.list"

# The run of the walk in two/README.md, and its neighbours.
expect 'two captures' 0 "$table" '' link 10000000000 0 74565 examples/two/u.pcap examples/two/v.pcap
cd -- "$here/two" || exit 1
expect 'the same capture twice' 0 $head_line$'\n0,2,2,0\n1,3,3,0\n2,1,1,0' '' link 10000000000 0 74565 u.pcap u.pcap
expect 'captures exchanged' 0 $head_line$'\n0,2,2,0\n1,2,3,-1\n2,1,1,0' '' link 10000000000 0 74565 v.pcap u.pcap
expect 'a flow without packets' 0 "$head_line" '' link 10000000000 0 1048575 u.pcap v.pcap
expect 'the longest block' 0 $head_line$'\n0,3,3,0' '' link 1099511627776 0 74565 u.pcap v.pcap
head -c 24 u.pcap >"$scratch/head.pcap"
expect 'captures without records' 0 "$head_line" '' link 10000000000 0 74565 "$scratch/head.pcap" "$scratch/head.pcap"
expect 'nothing left' 0 $head_line$'\n0,2,0,2\n1,3,0,3\n2,1,0,1' '' link 10000000000 0 74565 u.pcap "$scratch/head.pcap"
expect 'nothing entered' 0 $head_line$'\n0,0,2,-2\n1,0,2,-2\n2,0,1,-1' '' link 10000000000 0 74565 "$scratch/head.pcap" v.pcap

# A few packets in blocks of ten seconds: the shift, what each point sees, and the rows of the table.
# counts NAME SHIFT UP DOWN ROWS
counts() {
    local up down
    read -ra up <<<"$3"
    read -ra down <<<"$4"
    write_capture "$scratch/up.pcap" "${up[@]}"
    write_capture "$scratch/down.pcap" "${down[@]}"
    expect "$1" 0 "$head_line"$'\n'"$5" '' link 10000000000 "$2" 74565 "$scratch/up.pcap" "$scratch/down.pcap"
}
clear=12345000 loss=12345800 other=12346000 late=12000000000
counts 'a shift of 12 seconds' $late "1 48 $clear" "16 48 $clear" 0,1,1,0
counts 'order turned at the edge of a block' 0 "9.9 48 $clear 10 48 $loss" "8.2 48 $loss 8.3 48 $clear" $'0,1,1,0\n1,1,1,0'
counts 'a packet seen three seconds late' 0 "9.9 48 $clear" "12.9 48 $clear" 0,1,1,0
counts 'a packet seen twice' 0 "1 48 $clear" "1 48 $clear 1 48 $clear" 0,1,2,-1
counts 'packets of another flow' 0 "1 48 $other 2 48 $clear" "1 48 $other 11 48 $other" 0,1,0,1
counts 'colour 1 below its first window' 0 "4.999999 48 $loss" "5 48 $loss" 1,0,1,-1
counts 'the first point is at shift 0' $late "6.999999 48 $clear" "6.999999 48 $clear" 0,1,0,1
counts 'the end of a window and the start of the next' 0 "14.999999 48 $clear 15 48 $clear 10.2 48 $clear" '' $'0,2,0,2\n2,1,0,1'
counts 'the start of a window at a shift' $late '' "6.999999 48 $clear 7 48 $clear" 0,0,1,-1

# What `show` prints of each record. It asks nothing of them; `link` asks that no headers are cut.
cd -- "$top" || exit 1
expect_file 'show, from the top' 0 "$here/two/u.txt" '' show examples/two/u.pcap
expect_file 'show, chains from the top' 0 "$here/chains/chains.txt" '' show examples/chains/chains.pcap
cd -- "$here/chains" || exit 1
expect_file 'show chains' 0 chains.txt '' show chains.pcap
expect_file 'show v.pcap' 0 ../two/v.txt '' show ../two/v.pcap
expect 'show a capture without records' 0 '' '' show "$scratch/head.pcap"
altered ../two/u.pcap "$scratch/raw.pcap" 88 20 e5 40 40
expect 'show version 4 as raw IPv6' 0 '1 1000000000 48 48 ip6 bad@0 - -' '' show "$scratch/raw.pcap"
expect 'version 4 as raw IPv6' 0 "$head_line" '' link 10000000000 0 74565 "$scratch/raw.pcap" "$scratch/head.pcap"
expect 'chains as UP' 3 '' 'altmark: chains.pcap: headers of record 17 are cut' link 10000000000 0 74565 chains.pcap ../two/v.pcap

# The records of two/ in every form: each form of UP beside each of DOWN gives the one table, and each is shown.
cd -- "$here/forms" || exit 1
for up in u-*.pcap; do
    for down in v-*.pcap; do
        expect "forms/$up and forms/$down" 0 "$table" '' link 10000000000 0 74565 "$up" "$down"
    done
done
for file in *.pcap; do
    expect_file "show forms/$file" 0 "${file%.pcap}.txt" '' show "$file"
done

# The same packets among other traffic, which `link` passes over.
cd -- "$here/mixed" || exit 1
expect 'mixed' 0 "$table" '' link 10000000000 0 74565 u.pcap v.pcap
expect 'mixed, another flow' 0 $head_line$'\n0,1,0,1' '' link 10000000000 0 74566 u.pcap v.pcap
expect 'mixed beside the flow alone' 0 "$table" '' link 10000000000 0 74565 u.pcap ../two/v.pcap
expect_file 'show mixed/u.pcap' 0 u.txt '' show u.pcap
expect_file 'show mixed/v.pcap' 0 v.txt '' show v.pcap
cd -- "$here/two" || exit 1

# The marks taken out of a capture, and put in again: the same bytes. A capture that has its marks is refused.
"$altmark" strip two.toml u.pcap </dev/null >"$scratch/plain.pcap" 2>"$scratch/stderr"
tally 'strip, the status' "$([[ $? == 0 && ! -s $scratch/stderr ]] && echo yes)"
tally 'strip, the length' "$([[ $(wc -c <"$scratch/plain.pcap") == 360 ]] && echo yes)"
expect_file 'mark gives back what strip took' 0 u.pcap '' mark two.toml "$scratch/plain.pcap"
expect 'no mark is left' 0 "$head_line" '' link 10000000000 0 74565 "$scratch/plain.pcap" "$scratch/plain.pcap"
expect_file 'strip of a capture without marks' 0 "$scratch/plain.pcap" '' strip two.toml "$scratch/plain.pcap"
expect_file 'a capture that has its marks' 3 "$scratch/head.pcap" 'altmark: u.pcap: record 1: already marked at 42' mark two.toml u.pcap
expect 'mark, a missing domain' 4 '' 'altmark: no.toml: missing' mark no.toml u.pcap
expect 'mark, a missing capture' 4 '' 'altmark: no.pcap: missing' mark two.toml no.pcap
refuses 'mark of one word' mark two.toml
refuses 'strip of three' strip two.toml u.pcap u.pcap

# Traffic of several kinds: each packet of a flow gets its mark, in the form that its headers want, and loses it again.
cd -- "$here/mark" || exit 1
expect_file 'mark, several kinds of traffic' 0 marked.pcap '' mark net.toml plain.pcap
expect_file 'strip, several kinds of traffic' 0 plain.pcap '' strip net.toml marked.pcap
cd -- "$here/two" || exit 1

# The first packet of a block has the delay bit where no packet of a later block came before it.
write_capture "$scratch/plain.pcap" 1 40 - 2 40 - 11 40 - 3 40 - 12 40 - 21 40 -
write_capture "$scratch/marked.pcap" 1 48 12345400 2 48 12345000 11 48 12345c00 3 48 12345000 12 48 12345800 21 48 12345400
expect_file 'mark, a packet that comes late' 0 "$scratch/marked.pcap" '' mark two.toml "$scratch/plain.pcap"
expect_file 'strip, a packet that comes late' 0 "$scratch/plain.pcap" '' strip two.toml "$scratch/marked.pcap"
# A packet to another network, one of version 4, and a mark of another number stay as they are.
for row in 'mark plain 69 03' 'mark plain 40 40' 'strip marked 69 03' 'strip marked 86 44'; do
    read -r command name place byte <<<"$row"
    altered "$scratch/$name.pcap" "$scratch/other.pcap" "$([[ $name == plain ]] && echo 80 || echo 88)" "$place" "$byte"
    expect_file "$command, byte $place of a $name packet is $byte" 0 "$scratch/other.pcap" '' $command two.toml "$scratch/other.pcap"
done
# What gets no mark is refused after the record before it: a header that authenticates follows, or one that isn't there, or the
# packet has no room.
write_capture "$scratch/plain.pcap" 1 40 - 11 40 -
head -c 88 "$scratch/marked.pcap" >"$scratch/printed"
while IFS=: read -r cause changes; do
    read -ra split <<<"$changes"
    altered "$scratch/plain.pcap" "$scratch/other.pcap" 136 "${split[@]}"
    expect_file "mark, $cause" 3 "$scratch/printed" "altmark: $scratch/other.pcap: record 2: $cause" mark two.toml "$scratch/other.pcap"
done <<'END'
protected:102 33
malformed at 40:102 00
record full:92 ff 93 ff 94 ff 95 ff
END

# The reports of both points, and the loss table of the domain. All names of captures are those of the folder that the program
# runs in. Nothing is printed where a capture is missing, is refused or can't be read.
expect_file 'meter a' 0 a.csv '' meter two.toml a
expect_file 'meter b' 0 b.csv '' meter two.toml b
expect 'meter, an unknown node' 3 '' 'altmark: unknown node' meter two.toml z
expect 'meter, a node in capitals' 3 '' 'altmark: unknown node' meter two.toml A
expect 'meter, a node of no bytes' 3 '' 'altmark: unknown node' meter two.toml ''
expect 'meter, a node of 256 bytes' 3 '' 'altmark: unknown node' meter two.toml "$(printf 'a%.0s' {1..256})"
expect 'meter, a node with a line feed' 3 '' 'altmark: unknown node' meter two.toml $'a\n'
expect 'meter, a node that is no text' 2 '' '' meter two.toml $'a\xff'
expect 'meter, a missing domain before an unknown node' 4 '' 'altmark: no.toml: missing' meter no.toml z
expect 'meter, a refused domain before an unknown node' 3 '' 'altmark: domain: guard 5000000000 is not below half 5000000000' meter ../domains/guard-is-half.toml z
expect 'meter, a folder as the domain' 5 '' 'altmark: ../two: read fault' meter ../two a
expect_file 'audit two.toml' 0 two.audit '' audit two.toml
expect 'audit, a missing domain' 4 '' 'altmark: no.toml: missing' audit no.toml
expect 'audit, a refused domain' 3 '' 'altmark: domain: guard 5000000000 is not below half 5000000000' audit ../domains/guard-is-half.toml
expect 'audit, a folder as the domain' 5 '' 'altmark: ../two: read fault' audit ../two
expect 'audit, a capture as the domain' 3 '' 'altmark: domain: not TOML' audit u.pcap
mkdir "$scratch/audit"
cp two.toml u.pcap "$scratch/audit"
cd -- "$scratch/audit" || exit 1
expect_file 'meter a, where the capture of b is missing' 0 "$here/two/a.csv" '' meter two.toml a
expect 'meter, a missing capture' 4 '' 'altmark: v.pcap: missing' meter two.toml b
expect 'audit, a missing capture' 4 '' 'altmark: v.pcap: missing' audit two.toml
cp "$here/bad/headers-cut-before-file-ends.pcap" v.pcap
expect 'meter, a refused capture' 3 '' 'altmark: v.pcap: headers of record 2 are cut' meter two.toml b
expect 'audit, a refused capture' 3 '' 'altmark: v.pcap: headers of record 2 are cut' audit two.toml
mv v.pcap u.pcap
expect 'audit, a refused capture before one that is missing' 3 '' 'altmark: u.pcap: headers of record 2 are cut' audit two.toml
rm u.pcap && mkdir u.pcap
expect 'meter, a folder as the capture' 5 '' 'altmark: u.pcap: read fault' meter two.toml a
expect 'meter, an unknown node before any capture' 3 '' 'altmark: unknown node' meter two.toml z
expect 'audit, a folder as a capture' 5 '' 'altmark: u.pcap: read fault' audit two.toml
# The captures exchanged: in block 1 more left than entered, and each packet seems to arrive before it was sent.
rmdir u.pcap && cp "$here/two/v.pcap" u.pcap && cp "$here/two/u.pcap" v.pcap
exchanged=$(sed '1!{s/,3,2,1,-/,2,3,-1,-/; s/,0,1000000,/,0,-1000000,/; s/,0,500000,/,0,-500000,/; s/,500000$/,-500000/}' "$here/two/two.audit")
expect 'audit, captures exchanged' 0 "$exchanged" '' audit two.toml
# No records: a row for each block all the same.
cp "$scratch/head.pcap" u.pcap && cp "$scratch/head.pcap" v.pcap
zeros=$(sed '1!s/^\([^,]*,voice,.\),.*/\1,0,0,0,0,0,0,0/' "$here/two/two.audit")
expect 'audit, captures without records' 0 "$zeros" '' audit two.toml
# Captures of other forms, and the flow among other traffic.
cp "$here/forms/u-big-nano-ethernet.pcap" u.pcap && cp "$here/forms/v-little-micro-ipv6.pcap" v.pcap
expect_file 'audit, captures of other forms' 0 "$here/two/two.audit" '' audit two.toml
cp "$here/mixed/u.pcap" u.pcap && cp "$here/mixed/v.pcap" v.pcap
expect_file 'audit, the flow among other traffic' 0 "$here/two/two.audit" '' audit two.toml
for workers in 2 64; do
    sed "s/^place = .*/&\nworkers = $workers/" "$here/two/two.toml" >workers.toml
    expect_file "audit, $workers workers" 0 "$here/two/two.audit" '' audit workers.toml
    expect_file "meter, $workers workers" 0 "$here/two/b.csv" '' meter workers.toml b
done
# The records of two/ in every form give the two reports.
for side in u:a v:b; do
    for file in "$here/forms/${side%:*}"-*.pcap; do
        cp -- "$file" "${side%:*}.pcap"
        expect_file "meter, ${file##*/}" 0 "$here/two/${side#*:}.csv" '' meter two.toml "${side#*:}"
    done
done
# Each bad capture is refused by `meter`, and by `audit` in the place of either node's.
for file in "$here"/bad/*.pcap; do
    cp -- "$file" .
    name=${file##*/}
    line=$(<"${file%.pcap}.line")
    for side in u:a v:b; do
        sed "s/${side%:*}\.pcap/$name/" "$here/two/two.toml" >bad.toml
        expect "meter, bad/$name at ${side#*:}" 3 '' "$line" meter bad.toml "${side#*:}"
        expect "audit, bad/$name at ${side#*:}" 3 '' "$line" audit bad.toml
    done
    rm -- "$name"
done
columns=version,node,flow,block,count,sum,dcount,dsum
write_capture u.pcap 11 48 12345800 4 48 12345000
expect 'meter, colour 1 before colour 0' 0 $columns$'\n1,a,voice,0,1,4000000000,0,0\n1,a,voice,1,1,6000000000,0,0\n1,a,voice,2,0,0,0,0' '' meter two.toml a
write_capture u.pcap 4 48 12345800 4 48 12345000 35 48 12345400
expect 'meter, packets that belong to no reported block' 0 $columns$'\n1,a,voice,0,1,4000000000,0,0\n1,a,voice,1,0,0,0,0\n1,a,voice,2,0,0,0,0' '' meter two.toml a
write_capture u.pcap 1 44 12345400
expect 'meter, 44 bytes of 48' 3 '' 'altmark: u.pcap: headers of record 1 are cut' meter two.toml a
expect 'audit, 44 bytes of 48' 3 '' 'altmark: u.pcap: headers of record 1 are cut' audit two.toml
head -c 162 "$here/two/u.pcap" >u.pcap
expect 'meter, a capture of 162 bytes' 3 '' 'altmark: u.pcap: file ends in record 3' meter two.toml a
expect 'audit, a capture of 162 bytes' 3 '' 'altmark: u.pcap: file ends in record 3' audit two.toml
# A packet that enters once and leaves twice: a loss below 0, and no delay.
write_capture u.pcap 1 48 12345000
write_capture v.pcap 1 48 12345000 1 48 12345000
twice=$(sed 's/^\(.*,voice,0\),.*/\1,1,2,-1,-,0,0,0/; s/^\(.*,voice,[12]\),.*/\1,0,0,0,0,0,0,0/' "$here/two/two.audit")
expect 'audit, a packet that leaves twice' 0 "$twice" '' audit two.toml
# As many cells as there may be: all are in the report, those without a packet too.
sed 's/^until_ns = [0-9]*/until_ns = 327685000000000/' "$here/two/two.toml" >cells.toml
for node in a b; do
    { cat -- "$here/two/$node.csv" && seq -f "1,$node,voice,%.0f,0,0,0,0" 3 32767; } >"cells-$node.csv"
done
{
    head -n 1 "$here/two/two.audit"
    for scope in 0 network; do
        grep "^$scope,voice" "$here/two/two.audit" && seq -f "$scope,voice,%.0f,0,0,0,0,0,0,0" 3 32767
    done
} >cells.audit
cp "${two[@]}" .
expect_file 'meter, as many cells as there may be' 0 cells-a.csv '' meter cells.toml a
expect_file 'audit, as many cells as there may be' 0 cells.audit '' audit cells.toml
# Several flows, more links than one, and a point that both passes on and delivers.
cd -- "$here/mark" || exit 1
expect_file 'audit, two flows' 0 net.audit '' audit net.toml
cd -- "$here/split" || exit 1
expect_file 'audit, a point that passes on and delivers' 0 whole.audit '' audit whole.toml
expect_file 'audit, the same point as two nodes' 0 split.audit '' audit split.toml
expect 'clusters, a point that passes on and delivers' 0 $'cluster 0 links 0 starts a ends b\ncluster 1 links 1 starts b ends c' '' clusters whole.toml
expect 'clusters, the same point as two nodes' 0 $'cluster 0 links 0 1 starts a ends b bd\ncluster 1 links 2 starts b ends c' '' clusters split.toml
# Twelve points. The table is what the packets' ways give. Its rows with a loss, and the sums over the network, are also worked
# out from the list of drops and the clusters alone.
cd -- "$here/twelve" || exit 1
sed 's/^workers = [0-9]*/workers = 64/' twelve.toml >"$scratch/workers.toml"
expect_file 'audit, twelve points, 64 workers' 0 twelve.audit '' audit "$scratch/workers.toml"
expect_file 'audit, twelve points' 0 twelve.audit '' audit twelve.toml
awk -F, 'NR > 1 && $6 != 0 { print $1 "," $2 "," $3 "," $6 }' "$scratch/stdout" >"$scratch/losses"
if python3 "$here/make/traffic.py" --drops | cmp -s - "$scratch/losses" && [[ -s $scratch/losses ]]; then
    tally 'audit, the known drops of twelve points' yes
else
    tally 'audit, the known drops of twelve points' no "$(python3 "$here/make/traffic.py" --drops | diff - "$scratch/losses" | head -c 200 | tr '\n' '|')"
fi
awk -F, '$1 == "network" { i[$2] += $4; o[$2] += $5; l[$2] += $6 } END { for (f in i) print f "," i[f] "," o[f] "," l[f] }' "$scratch/stdout" | LC_ALL=C sort >"$scratch/sums"
if python3 "$here/make/traffic.py" --sums | LC_ALL=C sort | cmp -s - "$scratch/sums" && [[ -s $scratch/sums ]]; then
    tally 'audit, the sums over the network of twelve points' yes
else
    tally 'audit, the sums over the network of twelve points' no "$(tr '\n' '|' <"$scratch/sums")"
fi
cd -- "$here/two" || exit 1

# The same table from the reports, in whatever order they come. They are taken one after another, each to its end, and nothing
# is printed before the last was.
expect_file 'loss, a and b' 0 two.audit '' loss two.toml a.csv b.csv
expect_file 'loss, b and a' 0 two.audit '' loss two.toml b.csv a.csv
cd -- "$top" || exit 1
expect_file 'loss, from the top' 0 "$here/two/two.audit" '' loss examples/two/two.toml examples/two/b.csv examples/two/a.csv
cd -- "$here/two" || exit 1
expect 'loss, a alone' 3 '' 'altmark: no report of node b' loss two.toml a.csv
expect 'loss, b alone' 3 '' 'altmark: no report of node a' loss two.toml b.csv
expect 'loss, a twice' 3 '' 'altmark: a.csv: second report of node a' loss two.toml a.csv a.csv
expect 'loss, b twice' 3 '' 'altmark: b.csv: second report of node b' loss two.toml b.csv b.csv
expect 'loss, a twice, with b between' 3 '' 'altmark: ./a.csv: second report of node a' loss two.toml a.csv b.csv ./a.csv
expect 'loss, a twice before a report that is missing' 3 '' 'altmark: a.csv: second report of node a' loss two.toml a.csv a.csv no.csv
expect 'loss, a missing report before a twice' 4 '' 'altmark: no.csv: missing' loss two.toml a.csv no.csv a.csv
expect 'loss, a missing report' 4 '' 'altmark: no.csv: missing' loss two.toml a.csv no.csv
expect 'loss, all reports and a missing one' 4 '' 'altmark: no.csv: missing' loss two.toml a.csv b.csv no.csv
expect 'loss, a missing domain' 4 '' 'altmark: no.toml: missing' loss no.toml no.csv
expect 'loss, a refused domain before a missing report' 3 '' 'altmark: domain: guard 5000000000 is not below half 5000000000' loss ../domains/guard-is-half.toml no.csv
expect 'loss, a report as the domain' 3 '' 'altmark: domain: not TOML' loss a.csv a.csv b.csv
expect 'loss, a domain as a report' 3 '' 'altmark: two.toml: bad header' loss two.toml a.csv two.toml
expect 'loss, a capture as a report' 3 '' 'altmark: u.pcap: bad header' loss two.toml u.pcap b.csv
expect 'loss, a loss table as a report' 3 '' 'altmark: two.audit: bad header' loss two.toml two.audit
expect 'loss, a folder as the domain' 5 '' 'altmark: ../two: read fault' loss ../two a.csv b.csv
expect 'loss, a folder as a report' 5 '' 'altmark: ../two: read fault' loss two.toml a.csv ../two
expect 'loss, a file as a folder' 5 '' 'altmark: a.csv/b: read fault' loss two.toml a.csv a.csv/b
expect 'loss, reports of another domain' 3 '' 'altmark: a.csv: row 2: unknown node' loss ../twelve/twelve.toml a.csv b.csv

# Reports that were changed. report.csv is refused for what follows the colon; with no line there it is taken.
cd -- "$scratch/audit" || exit 1
cp "$here"/two/{a,b}.csv .
python3 - <<'END' >reports.lines
import re
report = open("a.csv", "rb").read()
head, first, second, third = report.splitlines(keepends=True)
most = 2**40

def named(name, line, data):
    print(f"{name}:{line}")
    open(f"{name}.report", "wb").write(data)

def rows(name, line, *data):
    named(name, line, head + b"".join(row.encode() + b"\n" for row in data))

def changed(name, line, old, new, row=first):
    assert row.count(old) == 1, (row, old)
    named(name, line, report.replace(row, row.replace(old, new)))

# the first row
named("no bytes", "bad header", b"")
named("a line feed", "bad header", b"\n")
named("without the first row", "bad header", first + second + third)
named("columns exchanged", "bad header", report.replace(b"version,node", b"node,version"))
named("a column less", "bad header", report.replace(b",dsum", b""))
named("a column more", "bad header", report.replace(b"dsum", b"dsum,"))
named("semicolons", "bad header", report.replace(b",", b";"))
named("a column in capitals", "bad header", report.replace(b"version", b"Version"))
named("a byte order mark alone", "bad header", b"\xef\xbb\xbf")
# a row
changed("a count of 01", "bad row 2", b",2,", b",01,")
changed("a count of +2", "bad row 2", b",2,", b",+2,")
changed("a count of a space and 2", "bad row 2", b",2,", b", 2,")
changed("a count of nothing", "bad row 2", b",2,", b",,")
changed("a count that is no number", "bad row 2", b",2,", b",two,")
changed("a block of -0", "bad row 2", b"voice,0", b"voice,-0")
changed("a block of 65 bits", "bad row 2", b"voice,0", b"voice,18446744073709551616")
changed("a block of 64 bits", "row 2: out of order", b"voice,0", b"voice,18446744073709551615")
changed("a sum of 129 bits", "bad row 2", b"3000000000", b"340282366920938463463374607431768211456")
changed("version 2", "bad row 2", b"1,a", b"2,a")
changed("version 01", "bad row 2", b"1,a", b"01,a")
changed("seven fields", "bad row 2", b",1,1000000000", b",1")
changed("nine fields", "bad row 2", b",1,1000000000", b",1,1000000000,")
changed("a sum above count times 2^42", "bad row 2", b"3000000000", b"8796093022209")
changed("a dcount above count", "bad row 2", b",1,1000000000", b",3,1000000000")
changed("a dsum above sum", "bad row 2", b",1,1000000000", b",1,3000000001")
changed("a dsum without dcount", "bad row 2", b",1,1000000000", b",0,1")
changed("an unlawful cell of an unknown node", "bad row 3", b"1,a,voice,1,3", b"1,z,voice,1,03", second)
rows("a count above 2^40", "bad row 2", f"1,a,voice,0,{most + 1},0,0,0")
rows("counts of more than 2^40 together", "bad row 3", f"1,a,voice,0,{most},0,0,0", "1,a,voice,1,1,0,0,0")
rows("counts of 2^40 together", "", f"1,a,voice,0,{most - 1},0,0,0", "1,a,voice,1,1,0,0,0", "1,a,voice,2,0,0,0,0")
# names
changed("an unknown node", "row 2: unknown node", b"1,a", b"1,z")
changed("a node in capitals", "row 2: unknown node", b"1,a", b"1,A")
changed("a node of no bytes", "row 2: unknown node", b"1,a", b"1,")
changed("a node that isn't UTF-8", "row 2: unknown node", b"1,a", b"1,\xff")
changed("another node", "row 3: other node", b"1,a", b"1,b", second)
changed("another node of an unknown flow", "row 4: other node", b"1,a,voice", b"1,b,video", third)
changed("an unknown flow", "row 2: unknown flow", b"voice", b"video")
changed("an unknown flow out of order", "row 3: unknown flow", b"voice,1", b"video,2", second)
# the order of the rows
named("the last two rows exchanged", "row 3: out of order", head + first + third + second)
named("a row twice", "row 3: out of order", head + first + first + second + third)
named("the first row left out", "row 2: out of order", head + second + third)
named("a row too many", "row 5: out of order", report + third)
named("the names of the columns again", "bad row 5", report + head)
named("without the last row", "short: flow voice block 2", head + first + second)
named("without the last two rows", "short: flow voice block 1", head + first)
named("without rows", "short: flow voice block 0", head)
named("cut inside the last row", "bad row 4", report[:-18])
named("a refusal before a short report", "bad row 2", head + first.replace(b",2,", b",02,"))
# spelled otherwise, and taken
named("CR LF", "", report.replace(b"\n", b"\r\n"))
named("rows without bytes", "", b"\n\r\n" + report.replace(b"\n", b"\n\n\r\n"))
named("no last line feed", "", report[:-1])
named("quotes", "", re.sub(rb"[^,\n]+", lambda it: b'"' + it.group() + b'"', report))
named("quotes round the names", "", report.replace(b"a,voice", b'"a","voice"').replace(b"version", b'"version"'))
named("as many bytes as there may be", "", report + b"\n" * (16777216 - len(report)))
named("a byte more", "too long", report + b"\n" * (16777217 - len(report)))
named("a byte more, and no report", "too long", b"\n" * 16777217)
# rows without bytes aren't counted, and a quoted line feed begins no row
named("a fault after rows without bytes", "bad row 3", (head + first + second.replace(b",3,", b",03,")).replace(b"\n", b"\n\n"))
named("a quoted line feed", "row 3: unknown node", head + first + second.replace(b"1,a", b'1,"a\n"'))
END
[[ -s reports.lines ]] || tally 'changed reports' no 'none was made'
taken=$(sed 's/^\(.*,voice,0\),.*/\1,1099511627775,2,1099511627773,-,0,1,-/; s/^\(.*,voice,1\),.*/\1,1,2,-1,-,0,1,-/; s/^\(.*,voice,2\),.*/\1,0,1,-1,-,0,1,-/' "$here/two/two.audit")
while IFS=: read -r name line; do
    mv -- "$name.report" report.csv
    if [[ $name == 'counts of 2^40 together' ]]; then
        expect "loss, a report with $name" 0 "$taken" '' loss two.toml report.csv b.csv
    elif [[ -z $line ]]; then
        expect_file "loss, a report with $name" 0 "$here/two/two.audit" '' loss two.toml b.csv report.csv
    else
        expect "loss, a report with $name" 3 '' "altmark: report.csv: $line" loss two.toml report.csv b.csv
        expect "loss, a second report with $name" 3 '' "altmark: report.csv: $line" loss two.toml b.csv report.csv no.csv
    fi
done <reports.lines
# The domain by which a report was written says which rows it has.
sed 's/^until_ns = [0-9]*/until_ns = 50000000000/' two.toml >longer.toml
expect 'loss, a domain of another block' 3 '' 'altmark: a.csv: short: flow voice block 3' loss longer.toml a.csv b.csv
sed 's/^from_ns = [0-9]*/from_ns = 5000000000/' two.toml >later.toml
expect 'loss, a domain without the first block' 3 '' 'altmark: a.csv: row 2: out of order' loss later.toml a.csv b.csv
sed 's/^until_ns = [0-9]*/until_ns = 30000000000/' two.toml >shorter.toml
expect 'loss, a domain without the last block' 3 '' 'altmark: b.csv: row 4: out of order' loss shorter.toml b.csv a.csv
# As many cells as there may be, read back.
expect_file 'loss, as many cells as there may be' 0 cells.audit '' loss cells.toml cells-a.csv cells-b.csv
head -n -1 cells-b.csv >report.csv
expect 'loss, as many cells as there may be less one' 3 '' 'altmark: report.csv: short: flow voice block 32767' loss cells.toml cells-a.csv report.csv
# Through pipes: no file is made of a report.
expect_file 'loss, reports that come through pipes' 0 "$here/two/two.audit" '' loss two.toml \
    <("$altmark" meter two.toml a </dev/null) <("$altmark" meter two.toml b </dev/null)
# What `meter` prints of each node gives the table that `audit` prints, from the last node to the first.
for name in mark/net split/whole split/split twelve/twelve; do
    cd -- "$here/${name%/*}" || exit 1
    reports=()
    while IFS= read -r node; do
        "$altmark" meter "${name#*/}.toml" "$node" </dev/null >"$scratch/audit/node-$node.csv" || tally "meter $name.toml $node" no
        reports=("$scratch/audit/node-$node.csv" "${reports[@]}")
    done < <("$altmark" check "${name#*/}.toml" </dev/null | awk '$1 == "node" { print $2 }')
    expect_file "loss, the reports of $name.toml" 0 "${name#*/}.audit" '' loss "${name#*/}.toml" "${reports[@]}"
done
# The reports of twelve points as jobs of GNU parallel, one of which fails and is repeated.
if [[ $(parallel --version 2>/dev/null) == 'GNU parallel'* ]]; then
    "$here/fleet/run.sh" "$scratch/fleet" parallel </dev/null >"$scratch/stdout" 2>"$scratch/stderr"
    got=$?
    if [[ $got == 0 && ! -s $scratch/stderr ]] && cmp -s "$scratch/stdout" "$here/fleet/parallel.txt"; then
        tally 'twelve points by GNU parallel' yes
    else
        tally 'twelve points by GNU parallel' no "status $got, '$(cat "$scratch/stdout" "$scratch/stderr" | tail -n 3 | head -c 300 | tr '\n' '|')'"
    fi
else
    echo "skipped: twelve points as jobs: GNU parallel isn't installed"
fi

# The worlds that `sim` makes from numbers. make/world.py makes the same, and counts what they drop. No capture is opened.
mkdir "$scratch/sim"
cp "$here"/{two/two,twelve/twelve,plan/tight}.toml "$scratch/sim"
cd -- "$scratch/sim" || exit 1
sim_line=cluster,true,reported,cells,equal
expect_file 'check plan/tight.toml' 0 "$here/plan/tight.check" '' check tight.toml
expect 'sim, no packets' 0 $sim_line$'\n0,0,0,3,3\nnetwork,0,0,3,3' '' sim two.toml 7 0
expect 'sim, no packets from the greatest number' 0 $sim_line$'\n0,0,0,3,3\nnetwork,0,0,3,3' '' sim two.toml 18446744073709551615 0
for name in twelve tight; do
    python3 "$here/make/world.py" $name.toml 7 20000 --sim >$name.sim
    tally "bytes of plan/$name.sim" "$(cmp -s $name.sim "$here/plan/$name.sim" && echo yes)"
    expect_file "sim plan/$name" 0 "$here/plan/$name.sim" '' sim $name.toml 7 20000
done
sed 's/v\.pcap/u.pcap/' two.toml >one-name.toml
sed 's/^place = .*/place = "destination"/' two.toml >destination.toml
sed 's/^block_ns = .*/block_ns = 402000002/' tight.toml >tighter.toml
{ cat two.toml && printf '\n[[link]]\nfrom = "b"\nto = "a"\n'; } >no-entry.toml
for words in 'one-name.toml 7 1000' 'destination.toml 7 1000' 'tighter.toml 7 20000' 'no-entry.toml 7 1000' \
    'two.toml 18446744073709551615 1000' 'two.toml 0 1' 'twelve.toml 7 200000'; do
    read -ra split <<<"$words"
    python3 "$here/make/world.py" "${split[@]}" --sim >wanted.sim
    expect_file "sim $words" 0 wanted.sim '' sim "${split[@]}"
done
# In each line true is reported and equal is cells, as many packets as there may be.
"$altmark" sim two.toml 7 1000000 </dev/null >stdout 2>stderr
got=$?
lines=$(awk -F, 'NR > 1 && $2 > 0 && $2 == $3 && $4 == 3 && $5 == 3' stdout | wc -l)
tally 'sim, 1000000 packets' "$([[ $got == 0 && $lines == 2 && $(wc -l <stdout) == 3 && ! -s stderr ]] && echo yes)" "status $got, $lines lines"
sed 's/^block_ns = .*/block_ns = 402000000/' tight.toml >refused.toml
expect 'sim, a refused domain' 3 '' 'altmark: domain: guard 201000000 is not below half 201000000' sim refused.toml 7 0
expect 'sim, a missing domain' 4 '' 'altmark: no.toml: missing' sim no.toml 7 0
expect 'sim, a folder as the domain' 5 '' 'altmark: ../sim: read fault' sim ../sim 7 0
expect 'sim, a capture as the domain' 3 '' 'altmark: domain: not TOML' sim "$here/two/u.pcap" 7 0
# The captures of such a world give one loss table with 1, 2 and 64 workers. It adds up to what the script counts and `sim`
# prints.
python3 "$here/make/world.py" twelve.toml 7 20000 world
cd world || exit 1
for workers in 1 2 64; do
    sed "s/^workers = .*/workers = $workers/" ../twelve.toml >workers.toml
    expect_file "sim, $workers workers" 0 "$here/plan/twelve.sim" '' sim workers.toml 7 20000
    if [[ $workers == 1 ]]; then
        "$altmark" audit workers.toml </dev/null >world.audit 2>stderr
        tally 'audit, a world of 20000 packets' "$([[ $? == 0 && ! -s stderr && $(wc -l <world.audit) == 541 ]] && echo yes)"
    else
        expect_file "audit, a world of 20000 packets, $workers workers" 0 world.audit '' audit workers.toml
    fi
done
awk -F, 'NR > 1 { n[$1] += $6 } END { for (s in n) print s "," n[s] }' world.audit | LC_ALL=C sort >losses
python3 "$here/make/world.py" ../twelve.toml 7 20000 --drops >drops
tally 'audit, the drops of a world' "$(cmp -s losses drops && echo yes)" "$(diff losses drops | head -c 200 | tr '\n' '|')"
tally 'audit and sim of a world' "$(awk -F, 'NR > 1 { print $1 "," $3 }' "$here/plan/twelve.sim" | cmp -s - losses && echo yes)"
# Clocks that are further off than the plan says: there are losses below 0 without room, and none with it.
for name in tight:60 twelve:0; do
    sed 's/^skew_ns = .*/skew_ns = 20000000/' "../${name%:*}.toml" >off.toml
    python3 "$here/make/world.py" off.toml 7 20000 .
    below=$("$altmark" audit "../${name%:*}.toml" </dev/null | awk -F, '$6 < 0' | wc -l)
    tally "audit by ${name%:*}.toml, clocks that are off" "$([[ $below == "${name#*:}" ]] && echo yes)" "$below"
done
cd -- "$here/two" || exit 1

# Words that are no command.
refuses 'no words'
refuses 'an unknown command' lose 10000000000 0 74565 u.pcap v.pcap
refuses 'a command in capitals' LINK 10000000000 0 74565 u.pcap v.pcap
refuses 'an empty word' ''
refuses '--help' --help
refuses '--version' --version
refuses 'one word too few' link 10000000000 0 74565 u.pcap
refuses 'one word too many' link 10000000000 0 74565 u.pcap v.pcap v.pcap
for block in 9 1 0 01 010 +10 -10 10_0 ' 10' '10 ' 1e10 0x10 '' 1099511627778 1099511627777 18446744073709551618 340282366920938463463374607431768211458; do
    refuses "block '$block'" link "$block" 0 74565 u.pcap v.pcap
done
for delay in 01 00 +1 -1 '' 1.0 1099511627777 340282366920938463463374607431768211456; do
    refuses "delay '$delay'" link 10000000000 "$delay" 74565 u.pcap v.pcap
done
for flow in 1048576 074565 0x12345 -1 '' 4294967297 340282366920938463463374607431768211456; do
    refuses "flow '$flow'" link 10000000000 0 "$flow" u.pcap v.pcap
done
long=$(printf 'a%.0s' {1..255})
refuses 'an empty name of UP' link 10000000000 0 74565 '' v.pcap
refuses 'an empty name of DOWN' link 10000000000 0 74565 u.pcap ''
refuses 'a name of 256 bytes' link 10000000000 0 74565 "a$long" v.pcap
refuses 'a name of 256 bytes, which are 128 letters' link 10000000000 0 74565 "$(printf 'ü%.0s' {1..128})" v.pcap
refuses 'a name with a line feed' link 10000000000 0 74565 $'u\n.pcap' v.pcap
refuses 'a name with U+001F' link 10000000000 0 74565 u.pcap $'v\x1f.pcap'
refuses 'a name with U+007F' link 10000000000 0 74565 u.pcap $'v\x7f.pcap'
for words in link 'Link 10000000000 0 74565 u.pcap v.pcap' show 'show u.pcap v.pcap' 'show 1 u.pcap' 'Show u.pcap' 'shows u.pcap' 'u.pcap show' 'link u.pcap'; do
    read -ra split <<<"$words"
    refuses "'$words'" "${split[@]}"
done
refuses 'show, an empty name' show ''
refuses 'show, a word behind the name' show u.pcap ''
refuses 'show, a name of 256 bytes' show "a$long"
refuses 'show, a name with a line feed' show $'u\n.pcap'
refuses 'show, a name with U+001F' show $'u\x1f.pcap'
refuses 'show, a name with U+007F' show $'u\x7f.pcap'
for words in check 'check two.toml two.toml' 'check 1 two.toml' 'Check two.toml' 'checks two.toml' 'two.toml check' clusters 'clusters two.toml two.toml' 'cluster two.toml'; do
    read -ra split <<<"$words"
    refuses "'$words'" "${split[@]}"
done
for words in audit 'audit two.toml x' 'Audit two.toml' 'audits two.toml' 'two.toml audit' meter 'meter two.toml' 'meter two.toml a b' 'Meter two.toml a' 'meters two.toml a'; do
    read -ra split <<<"$words"
    refuses "'$words'" "${split[@]}"
done
for words in loss 'loss two.toml' 'Loss two.toml a.csv' 'losses two.toml a.csv' 'two.toml loss a.csv'; do
    read -ra split <<<"$words"
    refuses "'$words'" "${split[@]}"
done
refuses 'loss, an empty name of the domain' loss '' a.csv
refuses 'loss, an empty name of a report' loss two.toml a.csv ''
refuses 'loss, a report of 256 bytes' loss two.toml a.csv "a$long"
refuses 'loss, a report with a line feed' loss two.toml $'a\n.csv' b.csv
refuses 'loss, a report with U+001F' loss two.toml a.csv $'b\x1f.csv'
refuses 'loss, a report with U+007F' loss two.toml a.csv $'b\x7f.csv'
expect 'loss, a word that is no text' 2 '' '' loss two.toml a.csv $'b\xff.csv'
expect 'loss, a name of 255 bytes' 4 '' "altmark: $long: missing" loss two.toml a.csv "$long"
for words in sim 'sim two.toml' 'sim two.toml 7' 'sim two.toml 7 0 0' 'Sim two.toml 7 0' 'sims two.toml 7 0' 'two.toml sim 7 0' 'sim 7 0 two.toml'; do
    read -ra split <<<"$words"
    refuses "'$words'" "${split[@]}"
done
for number in 18446744073709551616 340282366920938463463374607431768211456 +7 -7 07 7.0 0x7 ' 7' ''; do
    refuses "sim, number '$number'" sim two.toml "$number" 0
done
for packets in 1000001 4294967296 18446744073709551616 340282366920938463463374607431768211456 +1 -1 01 1e3 '1 ' ''; do
    refuses "sim, packets '$packets'" sim two.toml 7 "$packets"
done
refuses 'sim, too many packets of a missing domain' sim no.toml 7 1000001
refuses 'sim, an empty name' sim '' 7 0
refuses 'sim, a name of 256 bytes' sim "a$long" 7 0
refuses 'sim, a name with a line feed' sim $'two\n.toml' 7 0
expect 'sim, a word that is no text' 2 '' '' sim two.toml $'7\xff' 0
refuses 'audit, an empty name' audit ''
refuses 'audit, a name of 256 bytes' audit "a$long"
refuses 'audit, a name with a line feed' audit $'two\n.toml'
refuses 'meter, an empty name' meter '' a
refuses 'meter, a name of 256 bytes' meter "a$long" a
refuses 'meter, a name with U+007F' meter $'two\x7f.toml' a
refuses 'check, an empty name' check ''
refuses 'check, a word behind the name' check two.toml ''
refuses 'check, a name of 256 bytes' check "a$long"
refuses 'check, a name with a line feed' check $'two\n.toml'
refuses 'check, a name with U+001F' check $'two\x1f.toml'
refuses 'check, a name with U+007F' check $'two\x7f.toml'
expect 'check, a word that is no text' 2 '' '' check $'two\xff.toml'
expect 'check, a name of 255 bytes' 4 '' "altmark: $long: missing" check "$long"
expect 'check, a name that begins with a dash' 4 '' 'altmark: --help: missing' check --help
expect 'show, a word that is no text' 2 '' '' show $'u\xff.pcap'
expect 'show, a name of 255 bytes' 4 '' "altmark: $long: missing" show "$long"
expect 'show, a name that begins with a dash' 4 '' 'altmark: --help: missing' show --help
expect 'a word that is no text' 2 '' '' link 10000000000 0 74565 $'u\xff.pcap' v.pcap
expect 'a name of 255 bytes' 4 '' "altmark: $long: missing" link 10000000000 0 74565 "$long" v.pcap
for name in zürich.pcap 路 $'\xc2\x80'; do
    expect "a name of any letters, '$name'" 4 '' "altmark: $name: missing" link 10000000000 0 74565 "$name" v.pcap
done
expect 'the largest numbers' 0 "$head_line" '' link 1099511627776 1099511627776 1048575 u.pcap v.pcap
expect 'the smallest numbers' 0 "$head_line" '' link 2 0 0 u.pcap v.pcap
cd -- "$scratch" || exit 1
cp head.pcap ' ' && cp head.pcap '~'
expect 'names that are a space and a tilde' 0 "$head_line" '' link 10 0 1 ' ' '~'

# Files that are refused, in each place. DOWN is judged only where UP was accepted.
cd -- "$here/bad" || exit 1
good=../two/u.pcap
for file in *.pcap; do
    line=$(<"${file%.pcap}.line")
    expect "bad/$file as UP" 3 '' "$line" link 10000000000 0 74565 "$file" "$good"
    expect "bad/$file as DOWN" 3 '' "$line" link 10000000000 0 74565 "$good" "$file"
    expect "bad/$file before a DOWN that is missing" 3 '' "$line" link 10000000000 0 74565 "$file" missing.pcap
done

expect 'both are bad' 3 '' 'altmark: record-header-cut.pcap: file ends in record 3' link 10000000000 0 74565 record-header-cut.pcap head-cut.pcap
expect 'headers are cut before a bad DOWN' 3 '' 'altmark: headers-cut-before-file-ends.pcap: headers of record 2 are cut' link 10000000000 0 74565 headers-cut-before-file-ends.pcap head-cut.pcap

# `show` over the same files. Beside each stands all that it writes: the lines of records, then, where it refuses, why.
for file in *.pcap; do
    grep -v '^altmark: ' "${file%.pcap}.shown" >"$scratch/printed"
    line=$(grep '^altmark: ' "${file%.pcap}.shown")
    expect_file "show bad/$file" "$([[ -n $line ]] && echo 3 || echo 0)" "$scratch/printed" "$line" show "$file"
done

# What `check` prints of the two domains, and of each domain file: of those in domains/, and of those that make/domains.py
# writes from the rows there. Beside a file stands what is printed (NAME.out), or the line that refuses it (NAME.line), by
# `clusters` as by `check`.
cd -- "$top" || exit 1
expect_file 'check, from the top' 0 "$here/two/two.check" '' check examples/two/two.toml
cd -- "$here/domains" || exit 1
expect_file 'check two.toml' 0 ../two/two.check '' check ../two/two.toml
expect_file 'check twelve.toml' 0 ../twelve/twelve.check '' check ../twelve/twelve.toml
expect 'clusters two.toml' 0 'cluster 0 links 0 starts a ends b' '' clusters ../two/two.toml
expect_file 'clusters twelve.toml' 0 ../twelve/twelve.clusters '' clusters ../twelve/twelve.toml
# lettered NODES LINK..: the domain file of a network whose nodes are letters and whose links are two letters each.
lettered() {
    local nodes=$1 link
    shift
    echo 'timing = { block_ns = 10, skew_ns = 0, delay_min_ns = 0, delay_max_ns = 0 }'
    echo 'marking = { place = "hop-by-hop" }'
    echo 'flow = [{ name = "f", id = 1, source = "::/0", destination = "::/0" }]'
    for ((i = 0; i < ${#nodes}; i++)); do printf '[[node]]\nname = "%s"\ncapture = "c"\nfrom_ns = 0\nuntil_ns = 40\n' "${nodes:i:1}"; done
    for link in "$@"; do printf '[[link]]\nfrom = "%s"\nto = "%s"\n' "${link:0:1}" "${link:1:1}"; done
}
lettered abcdefghij ab ac bd be ce df di eg eh ej >"$scratch/letters.toml"
expect 'clusters of ten nodes' 0 $'cluster 0 links 0 1 starts a ends b c\ncluster 1 links 2 3 4 starts b c ends d e\ncluster 2 links 5 6 starts d ends f i\ncluster 3 links 7 8 9 starts e ends g h j' '' clusters "$scratch/letters.toml"
lettered abcxy ax bx by cy >"$scratch/letters.toml"
expect 'clusters of three entries and two ends' 0 'cluster 0 links 0 1 2 3 starts a b c ends x y' '' clusters "$scratch/letters.toml"
python3 "$here/make/domains.py" "$scratch/domains"
tally 'the rows of domains/' "$([[ $? == 0 ]] && echo yes)"
for folder in "$here/domains" "$scratch/domains"; do
    cd -- "$folder" || exit 1
    for file in *.toml; do
        if [[ -e ${file%.toml}.line ]]; then
            expect "check domains/$file" 3 '' "$(<"${file%.toml}.line")" check "$file"
            expect "clusters domains/$file" 3 '' "$(<"${file%.toml}.line")" clusters "$file"
        else
            expect_file "check domains/$file" 0 "${file%.toml}.out" '' check "$file"
        fi
    done
    alone=$(for file in *; do [[ $file == rows.txt ]] || echo "${file%.*}"; done | LC_ALL=C sort | uniq -c | awk '$1 != 2 { print $2 }')
    if [[ -z $alone ]]; then tally 'names of the domain files' yes; else tally 'names of the domain files' no "${alone//$'\n'/ }"; fi
done
cd -- "$here/domains" || exit 1
expect 'clusters, missing' 4 '' 'altmark: missing.toml: missing' clusters missing.toml
expect 'clusters, a folder' 5 '' 'altmark: ../two: read fault' clusters ../two
if command -v dot >"$scratch/dot"; then
    python3 "$here/picture.py" ../twelve/twelve.check ../twelve/twelve.clusters >"$scratch/network.dot"
    if dot -Tsvg "$scratch/network.dot" >"$scratch/network.svg"; then tally 'picture of twelve.toml' yes; else tally 'picture of twelve.toml' no; fi
fi

# Loss tables as pictures. In what gnuplot gets there is a bar for each row with a loss, and a level, which has two ends, for
# each row with the delay of a packet. Where gnuplot is installed both pictures are drawn, and name each scope and flow.
for name in two twelve; do
    rows=$here/$name/$name.audit
    bars=$(python3 "$here/plots/panels.py" "$rows" loss | grep -cE '^[0-9.]+ -?[0-9]+ [0-9.]+$')
    tally "bars of $name.audit" "$([[ $bars == $(awk -F, 'NR > 1 && $6 != 0' "$rows" | wc -l) ]] && echo yes)" "$bars"
    ends=$(python3 "$here/plots/panels.py" "$rows" delay | grep -cE '^-?[0-9.]+ -?[0-9.]+$')
    tally "levels of $name.audit" "$([[ $ends == $((2 * $(awk -F, 'NR > 1 && $7 != "-" && $5 > 0' "$rows" | wc -l))) ]] && echo yes)" "$ends"
done
# drawn TABLE: whether both pictures of it are XML, with the names of its scopes and flows
drawn() {
    python3 - "$1" "$scratch"/plots/{loss,delay}.svg <<'END'
import csv, sys
from xml.etree import ElementTree
with open(sys.argv[1], newline="") as table:
    rows = list(csv.DictReader(table))
names = {row["flow"] for row in rows} | {row["scope"] if row["scope"] == "network" else f"cluster {row['scope']}" for row in rows}
for picture in sys.argv[2:]:
    root = ElementTree.parse(picture).getroot()
    if not names <= {"".join(item.itertext()).strip() for item in root.iter() if item.tag.endswith("}text")}:
        sys.exit(f"{picture} lacks a name")
END
}
if command -v gnuplot >"$scratch/gnuplot"; then
    for name in two twelve; do
        rm -rf "$scratch/plots"
        "$here/plots/plot.sh" "$here/$name/$name.audit" "$scratch/plots" 2>"$scratch/stderr"
        got=$?
        if [[ $got == 0 && ! -s $scratch/stderr ]] && drawn "$here/$name/$name.audit" 2>"$scratch/stderr"; then
            tally "pictures of $name.audit" yes
        else
            tally "pictures of $name.audit" no "status $got, '$(tail -n 1 "$scratch/stderr" | head -c 200)'"
        fi
    done
    for name in two/two.toml two/u.pcap two/none; do
        "$here/plots/plot.sh" "$here/$name" "$scratch/plots" 2>"$scratch/stderr"
        got=$?
        if [[ $got == 3 && $(wc -l <"$scratch/stderr") == 1 ]]; then tally "pictures of $name, which is no table" yes; else tally "pictures of $name, which is no table" no "status $got"; fi
    done
else
    echo "skipped: pictures of loss tables: gnuplot isn't installed"
    "$here/plots/plot.sh" "$here/two/two.audit" "$scratch/plots" 2>"$scratch/stderr"
    got=$?
    if [[ $got == 4 && $(wc -l <"$scratch/stderr") == 1 ]]; then tally 'pictures without gnuplot' yes; else tally 'pictures without gnuplot' no "status $got"; fi
fi

# Files that aren't there, or can't be read.
cd -- "$here/bad" || exit 1
expect 'check, missing' 4 '' 'altmark: missing.toml: missing' check missing.toml
expect 'check, in a folder that is missing' 4 '' 'altmark: none/two.toml: missing' check none/two.toml
expect 'check, a folder' 5 '' 'altmark: ../two: read fault' check ../two
expect 'check, a file as a folder' 5 '' 'altmark: ../two/two.toml/a: read fault' check ../two/two.toml/a
expect 'check, a capture' 3 '' 'altmark: domain: not TOML' check "$good"
expect 'show, missing' 4 '' 'altmark: missing.pcap: missing' show missing.pcap
expect 'show, in a folder that is missing' 4 '' 'altmark: none/u.pcap: missing' show none/u.pcap
expect 'show, a folder' 5 '' 'altmark: ../two: read fault' show ../two
expect 'show, a file as a folder' 5 '' 'altmark: empty.pcap/u: read fault' show empty.pcap/u
expect 'UP is missing' 4 '' 'altmark: missing.pcap: missing' link 10000000000 0 74565 missing.pcap "$good"
expect 'UP is missing before a bad DOWN' 4 '' 'altmark: missing.pcap: missing' link 10000000000 0 74565 missing.pcap empty.pcap
expect 'DOWN is missing' 4 '' 'altmark: missing.pcap: missing' link 10000000000 0 74565 "$good" missing.pcap
expect 'UP in a folder that is missing' 4 '' 'altmark: none/u.pcap: missing' link 10000000000 0 74565 none/u.pcap "$good"
expect 'a folder as UP' 5 '' 'altmark: ../two: read fault' link 10000000000 0 74565 ../two "$good"
expect 'a folder as DOWN' 5 '' 'altmark: ../two: read fault' link 10000000000 0 74565 "$good" ../two
expect 'a file as a folder' 5 '' 'altmark: empty.pcap/u: read fault' link 10000000000 0 74565 empty.pcap/u "$good"

# Files that are made here, since they aren't small: a record of 262144 bytes and one of more, a file of more than 16 MiB,
# records of many lengths, so that a read of the system ends in any place of one, and zeros.
cd -- "$scratch" || exit 1
python3 - "${two[0]}" <<'END'
import struct, sys
u = open(sys.argv[1], "rb").read()
head, one, packet = u[:24], u[24:88], u[40:88]

def padded(length):
    return struct.pack("<IIII", 2, 0, length, length) + packet + bytes(length - len(packet))

def write(name, *parts):
    open(name, "wb").write(b"".join(parts))

def text(name, lengths):
    mark = "ip6 0:8,=59 74565/0/1 -"
    open(name, "w").writelines(f"{k} 2000000000 {n} {n} {mark}\n" for k, n in enumerate(lengths, 1))

write("record-of-most.pcap", head, padded(262144), padded(48))
text("record-of-most.txt", [262144, 48])
write("record-of-more.pcap", head, padded(262145), one)
many = [48] * 300000
write("many.pcap", head, *map(padded, many))
text("many.txt", many)
lengths = [48 + k * k % 97 for k in range(20000)]
write("lengths.pcap", head, *map(padded, lengths))
text("lengths.txt", lengths)
write("zeros.pcap", bytes(1000000))
END
expect 'a record of 262144 bytes' 0 $head_line$'\n0,2,2,0' '' link 10000000000 0 74565 record-of-most.pcap record-of-most.pcap
expect 'a record of 262145 bytes' 3 '' 'altmark: record-of-more.pcap: record 1 is too long: 262145' link 10000000000 0 74565 record-of-more.pcap missing.pcap
expect 'a file of more than 16 MiB' 0 $head_line$'\n0,300000,300000,0' '' link 10000000000 0 74565 many.pcap many.pcap
expect 'records of many lengths' 0 $head_line$'\n0,20000,300000,-280000' '' link 10000000000 0 74565 lengths.pcap many.pcap
expect_file 'show, a record of 262144 bytes' 0 record-of-most.txt '' show record-of-most.pcap
expect 'show, a record of 262145 bytes' 3 '' 'altmark: record-of-more.pcap: record 1 is too long: 262145' show record-of-more.pcap
expect_file 'show, a file of more than 16 MiB' 0 many.txt '' show many.pcap
expect_file 'show, records of many lengths' 0 lengths.txt '' show lengths.pcap
expect 'show, zeros' 3 '' 'altmark: zeros.pcap: bad magic' show zeros.pcap
expect 'zeros' 3 '' 'altmark: zeros.pcap: bad magic' link 10000000000 0 74565 zeros.pcap missing.pcap
write_capture record-of-4-gb.pcap 1 48 12345400 2 4278190128 12345000
expect 'a record of 4278190128 bytes as UP' 3 '' 'altmark: record-of-4-gb.pcap: record 2 is too long: 4278190128' link 10000000000 0 74565 record-of-4-gb.pcap missing.pcap
expect 'a record of 4278190128 bytes as DOWN' 3 '' 'altmark: record-of-4-gb.pcap: record 2 is too long: 4278190128' link 10000000000 0 74565 lengths.pcap record-of-4-gb.pcap
expect 'show, a record of 4278190128 bytes' 3 '1 1000000000 48 48 ip6 0:8,=59 74565/0/1 -' 'altmark: record-of-4-gb.pcap: record 2 is too long: 4278190128' show record-of-4-gb.pcap
# `show` writes the lines that it holds once they are 65,536 bytes or more. Those of 1,448 records are 65,501, and with one more
# they are 65,547.
for record in 1448 1449 1450; do
    head -c $((23 + 64 * record)) many.pcap >ends.pcap
    head -n $((record - 1)) many.txt >ends.txt
    expect_file "show, a file that ends in record $record" 3 ends.txt "altmark: ends.pcap: file ends in record $record" show ends.pcap
done

# Domain files that are made here, since they aren't small. One has as many nodes, links and flows as there may be, and as
# many cells. The others have more, or one item that isn't like the rest.
network() { python3 "$here/make/network.py" "$1.toml" "$1.out" "$2" "$3" "$4"; }
network most 128 1024 1024
network nodes 129 1025 1025
network links 128 1025 1025
network flows 128 1024 1025
sed 's/^block_ns = .*/block_ns = 10000000001/' nodes.toml >nodes-of-odd.toml
sed 's/^name = "flow-.*/name = "flow"/' flows.toml >flows-of-one-name.toml
sed 's/^name = "flow-.*/name = "flow"/' most.toml >one-name.toml
sed 's/^name = "flow-1023"/name = "flow-0"/' most.toml >flow-name.toml
sed 's/^id = 1044483$/id = 0/' most.toml >flow-id.toml
sed 's/^name = "p127"/name = "p0"/' most.toml >node-name.toml
sed '$ s/.*/to = "p128"/' most.toml >link-end.toml
{ head -n -2 most.toml; printf 'from = "p0"\nto = "p16"\n'; } >link-twice.toml
sed 's/^block_ns = .*/block_ns = 5000000000/' most.toml >cells.toml
expect_file 'check, as many of each as there may be' 0 most.out '' check most.toml
while IFS=: read -r file line; do
    expect "check, $file of many" 3 '' "altmark: domain: $line" check "$file.toml"
done <<'END'
nodes:too many nodes: 129
links:too many links: 1025
flows:too many flows: 1025
nodes-of-odd:block is odd
flows-of-one-name:too many flows: 1025
one-name:flow[1].name repeats flow[0].name
flow-name:flow[1023].name repeats flow[0].name
flow-id:flow[1023].id repeats flow[0].id
node-name:node[127].name repeats node[0].name
link-end:link[1023].to is no node
link-twice:link[1023] repeats link[0]
cells:too many cells: 65536
END

# Domain files of as many bytes as there may be, and of one more, which is refused whatever it says.
python3 - "$here/two/two.toml" <<'END'
import sys
two = open(sys.argv[1], "rb").read()

def write(name, length, end=b"\n"):
    open(name, "wb").write(two + b"#" * (length - len(two) - len(end)) + end)

write("bytes.toml", 1048576)
write("bytes-no-toml.toml", 1048576, b"\n[")
write("bytes-and-one.toml", 1048577)
write("bytes-and-one-no-toml.toml", 1048577, b"\n[")
END
expect_file 'check, a file of 1048576 bytes' 0 "$here/two/two.check" '' check bytes.toml
expect 'check, a file of 1048576 bytes, no TOML' 3 '' 'altmark: domain: not TOML' check bytes-no-toml.toml
expect 'check, a file of 1048577 bytes' 3 '' 'altmark: bytes-and-one.toml: too long' check bytes-and-one.toml
expect 'check, a file of 1048577 bytes, no TOML' 3 '' 'altmark: bytes-and-one-no-toml.toml: too long' check bytes-and-one-no-toml.toml
expect 'check, a file of more than 16 MiB' 3 '' 'altmark: many.pcap: too long' check many.pcap
expect 'check, zeros' 3 '' 'altmark: domain: not TOML' check zeros.pcap

# A capture, and a domain file, that come through a pipe, so many bytes at a time.
# through_pipe BYTES FILE COMMAND OUTPUT
through_pipe() {
    mkfifo pipe
    timeout 20 python3 - "$1" "$2" <<'END' &
import sys
piece, source = int(sys.argv[1]), open(sys.argv[2], "rb").read()
with open("pipe", "wb", buffering=0) as pipe:
    for at in range(0, len(source), piece):
        pipe.write(source[at : at + piece])
END
    expect_file "$3, a pipe of $1 bytes at a time" 0 "$4" '' "$3" pipe
    wait
    rm -f pipe
}
for piece in 1 7 100; do
    through_pipe $piece "${two[0]}" show "$here/two/u.txt"
    through_pipe $piece "$here/two/two.toml" check "$here/two/two.check"
done
through_pipe 1000 most.toml check most.out

# Streams that can't be written.
if [[ -c /dev/full && -w /dev/full ]]; then
    "$altmark" link 10000000000 0 74565 "${two[@]}" </dev/null >/dev/full 2>stderr
    got=$?
    if [[ $got == 6 && $(<stderr) == 'altmark: write fault' ]]; then tally 'output to a full device' yes; else tally 'output to a full device' no "status $got"; fi
    # to_full NAME STATUS LINE WORD.., where LINE is all that standard error has.
    to_full() {
        local name=$1 status=$2 line=$3
        shift 3
        "$altmark" "$@" </dev/null >/dev/full 2>stderr
        got=$?
        if [[ $got == "$status" && $(<stderr) == "$line" ]]; then tally "$name" yes; else tally "$name" no "status $got, '$(head -c 200 stderr)'"; fi
    }
    # `show` writes the line of a record before it looks at the next, so a full device comes before what is wrong further on.
    to_full 'show to a full device' 6 'altmark: write fault' show "$here/chains/chains.pcap"
    to_full 'show to a full device, refused at record 2' 6 'altmark: write fault' show "$here/bad/record-too-long.pcap"
    to_full 'show to a full device, refused at the file header' 3 'altmark: zeros.pcap: bad magic' show zeros.pcap
    to_full 'show to a full device, refused at record 1' 3 'altmark: record-of-more.pcap: record 1 is too long: 262145' show record-of-more.pcap
    to_full 'show to a full device, no records' 0 '' show "$scratch/head.pcap"
    # `check` writes nothing before the domain was accepted, so what is wrong with it comes before a full device.
    to_full 'check to a full device' 6 'altmark: write fault' check "$here/two/two.toml"
    to_full 'check to a full device, as many of each as there may be' 6 'altmark: write fault' check most.toml
    to_full 'check to a full device, refused' 3 'altmark: domain: too many cells: 65536' check cells.toml
    to_full 'check to a full device, missing' 4 'altmark: missing.toml: missing' check missing.toml
    to_full 'clusters to a full device' 6 'altmark: write fault' clusters "$here/two/two.toml"
    to_full 'clusters to a full device, refused' 3 'altmark: domain: too many cells: 65536' clusters cells.toml
    to_full 'sim to a full device' 6 'altmark: write fault' sim "$here/two/two.toml" 7 0
    to_full 'sim to a full device, refused' 3 'altmark: domain: too many cells: 65536' sim cells.toml 7 0
    to_full 'sim to a full device, missing' 4 'altmark: missing.toml: missing' sim missing.toml 7 0
    # So do `meter` and `audit`, and not before the last capture was read.
    cp "$here/two/two.toml" "${two[@]}" "$scratch/audit"
    cd -- "$scratch/audit" || exit 1
    to_full 'meter to a full device' 6 'altmark: write fault' meter two.toml a
    to_full 'meter to a full device, an unknown node' 3 'altmark: unknown node' meter two.toml z
    to_full 'audit to a full device' 6 'altmark: write fault' audit two.toml
    to_full 'audit to a full device, a missing domain' 4 'altmark: no.toml: missing' audit no.toml
    to_full 'audit to a full device, as many cells as there may be' 6 'altmark: write fault' audit cells.toml
    mv v.pcap v.kept
    to_full 'loss to a full device' 6 'altmark: write fault' loss two.toml a.csv b.csv
    to_full 'loss to a full device, as many cells as there may be' 6 'altmark: write fault' loss cells.toml cells-a.csv cells-b.csv
    to_full 'loss to a full device, a alone' 3 'altmark: no report of node b' loss two.toml a.csv
    to_full 'loss to a full device, a twice' 3 'altmark: a.csv: second report of node a' loss two.toml a.csv b.csv a.csv
    to_full 'loss to a full device, a missing report' 4 'altmark: no.csv: missing' loss two.toml a.csv no.csv
    to_full 'meter to a full device, a missing capture' 4 'altmark: v.pcap: missing' meter two.toml b
    to_full 'audit to a full device, a missing capture' 4 'altmark: v.pcap: missing' audit two.toml
    head -c 162 v.kept >v.pcap
    to_full 'audit to a full device, a refused capture' 3 'altmark: v.pcap: file ends in record 3' audit two.toml
    mv v.kept v.pcap
    cd -- "$scratch" || exit 1
    "$altmark" </dev/null >stdout 2>/dev/full
    got=$?
    if [[ $got == 2 && ! -s stdout ]]; then tally 'no words, with a full standard error' yes; else tally 'no words, with a full standard error' no "status $got"; fi
    "$altmark" link 10000000000 0 74565 missing.pcap missing.pcap </dev/null >stdout 2>/dev/full
    got=$?
    if [[ $got == 4 && ! -s stdout ]]; then tally 'a missing file, with a full standard error' yes; else tally 'a missing file, with a full standard error' no "status $got"; fi
    "$altmark" link 10000000000 0 74565 "${two[0]}" "$here/two" </dev/null >stdout 2>/dev/full
    got=$?
    if [[ $got == 5 && ! -s stdout ]]; then tally 'a folder as DOWN, with a full standard error' yes; else tally 'a folder as DOWN, with a full standard error' no "status $got"; fi
    "$altmark" link 10000000000 0 74565 "${two[@]}" </dev/null >/dev/full 2>/dev/full
    got=$?
    if [[ $got == 6 ]]; then tally 'both streams full' yes; else tally 'both streams full' no "status $got"; fi
fi
"$altmark" link 10000000000 0 74565 "${two[@]}" </dev/null >stdout 2>&-
got=$?
if [[ $got == 0 && $(<stdout) == "$table" ]]; then tally 'standard error closed' yes; else tally 'standard error closed' no "status $got"; fi
"$altmark" show "$here/bad/record-header-cut.pcap" </dev/null >stdout 2>&-
got=$?
if [[ $got == 3 ]] && head -n 2 "$here/two/u.txt" | cmp -s - stdout; then tally 'show, refused, with standard error closed' yes; else tally 'show, refused, with standard error closed' no "status $got"; fi
"$altmark" link 10000000000 0 74565 missing.pcap "${two[1]}" </dev/null >stdout 2>&-
got=$?
if [[ $got == 4 && ! -s stdout ]]; then tally 'a missing file, with standard error closed' yes; else tally 'a missing file, with standard error closed' no "status $got"; fi
"$altmark" check cells.toml </dev/null >stdout 2>&-
got=$?
if [[ $got == 3 && ! -s stdout ]]; then tally 'check, refused, with standard error closed' yes; else tally 'check, refused, with standard error closed' no "status $got"; fi

# Captures that other tools wrote, where these are installed: the records of an example in a file of their making.
have() {
    command -v "$1" >/dev/null && return 0
    echo "skipped: captures that $1 writes: it isn't installed"
    return 1
}

# same NAME CAPTURE: CAPTURE has the records of mixed/v.pcap, so `show` and `link` print of both the same.
same() {
    expect_file "show, $1" 0 "$here/mixed/v.txt" '' show "$2"
    expect "$1" 0 "$table" '' link 10000000000 0 74565 "$here/mixed/u.pcap" "$2"
}

if have editcap; then
    for kind in pcap nsecpcap; do
        editcap -F $kind "$here/mixed/v.pcap" "editcap-$kind.pcap" && same "written by editcap as $kind" "editcap-$kind.pcap"
    done
    # The first 54 bytes of each frame: an Ethernet and an IPv6 header, and nothing of the Hop-by-Hop header. Then the first
    # 62, which is all of the headers.
    editcap -F pcap -s 54 "$here/forms/u-big-nano-ethernet.pcap" short.pcap &&
        expect 'cut short by editcap' 3 '' 'altmark: short.pcap: headers of record 1 are cut' link 10000000000 0 74565 short.pcap missing.pcap
    editcap -F pcap -s 62 "$here/forms/u-big-nano-ethernet.pcap" long.pcap &&
        expect 'cut by editcap behind the headers' 0 "$table" '' link 10000000000 0 74565 long.pcap "$here/mixed/v.pcap"
    editcap -F pcapng "$here/mixed/v.pcap" v.pcapng &&
        expect 'pcapng, written by editcap' 3 '' 'altmark: v.pcapng: bad magic' link 10000000000 0 74565 v.pcapng missing.pcap
fi
if have tcpdump; then
    # It gives up the right to open files, so it reads and writes the standard streams.
    for unit in micro nano; do
        tcpdump --time-stamp-precision=$unit -r - -w - <"$here/mixed/v.pcap" >"tcpdump-$unit.pcap" 2>/dev/null &&
            same "written by tcpdump with ${unit}seconds" "tcpdump-$unit.pcap"
    done
fi
if have gzip; then
    gzip -c "${two[0]}" >u.pcap.gz
    expect 'a capture in gzip' 3 '' 'altmark: u.pcap.gz: bad magic' show u.pcap.gz
fi

# A capture of this machine's own loopback, where the system lets one be taken: six pings, 64 bytes of each frame.
if command -v tcpdump >/dev/null && ping -6 -n -c 1 -W 1 ::1 >/dev/null 2>&1; then
    ping -6 -n -i 0.2 -c 30 ::1 >/dev/null 2>&1 &
    pinging=$!
    if timeout 5 tcpdump -i lo -c 6 -s 64 -w - 'icmp6 and (ip6[40] == 128 or ip6[40] == 129)' >taken.pcap 2>/dev/null; then
        "$altmark" show taken.pcap </dev/null >stdout 2>stderr
        got=$?
        shape='^[1-6] [1-9][0-9]{18} 64 [1-9][0-9]* ip6 =58 - -$'
        if [[ $got == 0 && $(wc -l <stdout) == 6 && $(grep -cE "$shape" stdout) == 6 && ! -s stderr ]]; then
            tally 'show, a capture of loopback' yes
        else
            tally 'show, a capture of loopback' no "status $got, '$(head -c 200 stdout stderr | tr '\n' '|')'"
        fi
        expect 'a capture of loopback' 0 "$head_line" '' link 10000000000 0 74565 taken.pcap taken.pcap
    fi
    kill $pinging 2>/dev/null
    wait
fi

# Each of the two captures cut at each of its lengths, as UP, as DOWN, and shown.
exec 4>&1
cut_counts=$(python3 "$here/cuts.py" "$altmark" "${two[@]}" 3>&1 1>&4)
if [[ $cut_counts =~ ^([0-9]+)\ ([0-9]+)$ ]]; then
    checks=$((checks + BASH_REMATCH[1]))
    failed=$((failed + BASH_REMATCH[2]))
else
    tally 'captures cut at each length' no 'examples/cuts.py gave no counts'
fi

echo "examples: $checks checks, $failed failed"
[[ $failed == 0 && $checks -gt 0 ]]
