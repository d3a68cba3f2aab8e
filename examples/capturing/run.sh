#!/usr/bin/env bash
# run.sh FOLDER: measures packets that this machine sends to itself, as root. It needs tcpdump, nftables, iproute2, python3.
# Packets go from the namespace am-up through am-way, which drops some, to am-down, and are captured where they leave the
# first and where they reach the last. FOLDER gets the captures, the domain file, and what was sent and received.
set -u

here=$(dirname -- "$(readlink -f -- "${BASH_SOURCE[0]}")")
altmark=$here/../../altmark
flow=74565
block=2000000000
folder=${1:?the folder that the files go to}
mkdir -p -- "$folder" && cd -- "$folder" || exit 1

# The program is built first where that is due.
"$altmark" </dev/null 2>/dev/null
[[ $? == 2 ]] || { "$altmark"; exit 1; }

# Three namespaces in a row, each joined to the next by a pair of interfaces.
trap 'for n in am-up am-way am-down; do ip netns del $n 2>/dev/null; done' EXIT
for n in am-up am-way am-down; do ip netns add $n || exit 1; done
ip link add out0 netns am-up type veth peer name left netns am-way
ip link add in0 netns am-down type veth peer name right netns am-way
ip -n am-up addr add 2001:db8:1::1/64 dev out0 nodad
ip -n am-way addr add 2001:db8:1::2/64 dev left nodad
ip -n am-way addr add 2001:db8:2::2/64 dev right nodad
ip -n am-down addr add 2001:db8:2::1/64 dev in0 nodad
for i in am-up:out0 am-way:left am-way:right am-down:in0; do
    ip -n "${i%:*}" link set "${i#*:}" up
    ip netns exec "${i%:*}" ethtool -K "${i#*:}" tso off gso off gro off 2>/dev/null
done
ip -n am-up route add default via 2001:db8:1::2
ip -n am-down route add default via 2001:db8:2::2
ip netns exec am-way sysctl -qw net.ipv6.conf.all.forwarding=1

# The network loses one packet in fifty.
ip netns exec am-way nft -f - <<'RULES' || exit 1
table ip6 way {
    chain pass {
        type filter hook forward priority 0
        meta l4proto udp numgen inc mod 50 == 7 counter drop
    }
}
RULES

# Traffic runs for 30 seconds. The captures begin five seconds later and end five seconds earlier.
ip netns exec am-down python3 "$here/receive.py" 5000 33 >received.txt &
receiver=$!
sleep 1
ip netns exec am-up python3 "$here/send.py" 2001:db8:2::1 5000 $flow $block 30 200 >sent.txt &
sender=$!
sleep 5
options=(-s 128 -B 4096 --time-stamp-precision=nano)
ip netns exec am-up tcpdump -i out0 "${options[@]}" -w up.pcap 2>up.log &
up=$!
ip netns exec am-down tcpdump -i in0 "${options[@]}" -w down.pcap 2>down.log &
down=$!
sleep 1
from=$(date +%s%N)
sleep 19
until=$(($(date +%s%N) - 2000000000)) # the last two seconds may still be in tcpdump's buffer
kill -INT $up $down
wait $up $down $sender $receiver
tail -n 3 up.log down.log

cat >domain.toml <<DOMAIN
[timing]
block_ns = $block
skew_ns = 0
delay_min_ns = 0
delay_max_ns = 100000000

[marking]
place = "hop-by-hop"

[[flow]]
name = "try"
id = $flow
source = "2001:db8:1::/48"
destination = "2001:db8:2::/48"

[[node]]
name = "up"
capture = "up.pcap"
from_ns = $from
until_ns = $until

[[node]]
name = "down"
capture = "down.pcap"
from_ns = $from
until_ns = $until

[[link]]
from = "up"
to = "down"
DOMAIN

echo
echo 'altmark check domain.toml: which blocks both captures have whole'
"$altmark" check domain.toml | head -n 1
echo
echo "altmark link $block 0 $flow up.pcap down.pcap, and in brackets what was sent, received and lost"
"$altmark" link $block 0 $flow up.pcap down.pcap | while IFS=, read -r number in out lost; do
    sent=$(awk -v b="$number" '$1 == b { print $2 }' sent.txt)
    received=$(awk -v b="$number" '$1 == b { print $2 }' received.txt)
    [[ -n $sent ]] && truth=" ($sent,$received,$((sent - received)))" || truth=
    echo "$number,$in,$out,$lost$truth"
done
