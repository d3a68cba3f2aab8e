#!/usr/bin/env bash
# Has tshark read the marked capture: each mark is found where it should be, no packet is malformed, and each checksum is still
# right. Where tshark isn't installed it says so and ends with 0.
set -u

here=$(dirname -- "$(readlink -f -- "${BASH_SOURCE[0]}")")
if ! command -v tshark >/dev/null; then
    echo 'skipped: tshark is not installed'
    exit 0
fi
read_fields() { tshark -r "$here/$1" -o udp.check_checksum:TRUE -o tcp.check_checksum:TRUE -Y "$2" -T fields "${@:3}" 2>/dev/null; }

failed=0
told() {
    printf '%s: %s\n' "$1" "$2"
    [[ $2 == "$3" ]] || failed=1
}
marked='10 packets'
told 'packets with a mark' "$(read_fields marked.pcap 'ipv6.opt.type == 18' -e frame.number | wc -l) packets" "$marked"
told 'malformed packets' "$(read_fields marked.pcap '_ws.malformed' -e frame.number | wc -l)" 0
told 'wrong checksums' "$(read_fields marked.pcap 'udp.checksum.status == 0 or tcp.checksum.status == 0 or icmpv6.checksum.status == 0' -e frame.number | wc -l)" 0
told 'marks in plain.pcap' "$(read_fields plain.pcap 'ipv6.opt.type == 18' -e frame.number | wc -l)" 0
exit $failed
