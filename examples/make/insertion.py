"""The captures of mark/: traffic of several kinds without marks, and the same with the marks of mark/net.toml.

What a marked packet is stands here once more, and is done by hand on its bytes: which bytes come in where, which byte
announces them, and how the lengths change. The program plays no part in it.
"""
import struct

HOP_BY_HOP, ROUTING, FRAGMENT, DESTINATION = 0, 43, 44, 60
TCP, UDP, ICMP6 = 6, 17, 58
BLOCK = 10  # seconds

# The flows of net.toml, by number, and the addresses of their packets: the first of either network.
VOICE, VIDEO = 74565, 4096
ADDRESSES = {
    VOICE: ("20010db8000100000000000000000001", "20010db8000200000000000000000001"),
    VIDEO: ("20010db8000100010000000000000007", "20010db8000300000000000000000009"),
    None: ("20010db8000900000000000000000001", "20010db8000200000000000000000001"),
}

MACS = bytes.fromhex("020000000002 020000000001")
TAG = bytes.fromhex("81000064")
IP4 = bytes.fromhex("4500001c0000400040110000 0a000001 0a000002 30390035 00080000")


def packet(flow, following, behind):
    """An IPv6 packet of the flow, of these bytes behind its fixed header."""
    source, destination = ADDRESSES[flow]
    return struct.pack(">IHBB", 0x60000000, len(behind), following, 64) + bytes.fromhex(source + destination) + behind


def summed(flow, kind, bytes_, at):
    """The bytes of an upper layer with their checksum at this place (RFC 8200, section 8.1)."""
    source, destination = ADDRESSES[flow]
    covered = bytes.fromhex(source + destination) + struct.pack(">II", len(bytes_), kind) + bytes_
    covered += bytes(len(covered) % 2)
    total = sum(struct.unpack(f">{len(covered) // 2}H", covered))
    while total > 0xFFFF:
        total = (total & 0xFFFF) + (total >> 16)
    return bytes_[:at] + struct.pack(">H", ~total & 0xFFFF) + bytes_[at + 2 :]


def udp(flow, data):
    return summed(flow, UDP, struct.pack(">HHHH", 5004, 5004, 8 + len(data), 0) + data, 6)


def tcp(flow, data):
    return summed(flow, TCP, struct.pack(">HHIIBBHHH", 40000, 443, 1, 1, 0x50, 0x18, 1024, 0, 0) + data, 16)


def echo(flow, data):
    return summed(flow, ICMP6, struct.pack(">BBHHH", 128, 0, 0, 1, 1) + data, 2)


# A Hop-by-Hop header of a Router Alert (RFC 2711) and a PadN, a Destination header of a PadN, a Routing header whose one
# segment is done, and a Fragment header of a first fragment.
def alert(following):
    return bytes([following, 0]) + bytes.fromhex("05020000 0100")


def padding(following):
    return bytes([following, 0]) + bytes.fromhex("010400000000")


def route(following):
    return bytes([following, 2, 4, 0]) + bytes.fromhex("00000000 20010db8000400000000000000000001")


def fragment(following):
    return bytes([following, 0]) + bytes.fromhex("0001 00000007")


# Each packet: the second at which it is read, its flow, the tags of its frame, what follows its fixed header, and the bytes
# behind that. Two are no packets of a flow: an IPv6 packet of other addresses, and IPv4.
TRAFFIC = [
    (1, VOICE, b"", UDP, udp(VOICE, b"first of block 0")),
    (2, VOICE, b"", UDP, udp(VOICE, b"second of block 0")),
    (3, VIDEO, b"", TCP, tcp(VIDEO, b"a segment")),
    (4, None, b"", UDP, udp(None, b"another network")),
    (5, VOICE, TAG, ICMP6, echo(VOICE, b"with a VLAN tag")),
    (6, None, b"", None, IP4),
    (9, VIDEO, b"", HOP_BY_HOP, alert(UDP) + udp(VIDEO, b"behind a Router Alert")),
    (11, VOICE, b"", DESTINATION, padding(UDP) + udp(VOICE, b"first of block 1")),
    (12, VIDEO, b"", ROUTING, route(UDP) + udp(VIDEO, b"first of block 1")),
    (13, VOICE, b"", FRAGMENT, fragment(UDP) + udp(VOICE, b"a first fragment")),
    (8, VOICE, b"", UDP, udp(VOICE, b"late, of block 0")),
    (21, VOICE, b"", UDP, udp(VOICE, b"first of block 2")),
]


def option(flow, block, ahead):
    """The eight-byte spelling of the option alone: six bytes, the reserved bits zero (RFC 9343, section 3.1)."""
    return bytes([0x12, 4]) + struct.pack(">I", flow << 12 | (block % 2) << 11 | ahead << 10)


def marked(bytes_, spelling):
    """The packet with the option in its Hop-by-Hop header: in a new one, or at the end of the one it has."""
    payload = struct.pack(">H", int.from_bytes(bytes_[4:6], "big") + 8)
    if bytes_[6] != HOP_BY_HOP:
        return bytes_[:4] + payload + bytes([HOP_BY_HOP]) + bytes_[7:40] + bytes([bytes_[6], 0]) + spelling + bytes_[40:]
    end = 40 + 8 + 8 * bytes_[41]
    return bytes_[:4] + payload + bytes_[6:41] + bytes([bytes_[41] + 1]) + bytes_[42:end] + bytes([1, 0]) + spelling + bytes_[end:]


def frames():
    """Of each record: the second, the frame, and the frame with its mark."""
    newest = {}
    for second, flow, tags, following, behind in TRAFFIC:
        if following is None:
            frame = MACS + bytes.fromhex("0800") + behind
            yield second, frame, frame
            continue
        front, whole = MACS + tags + bytes.fromhex("86dd"), packet(flow, following, behind)
        changed = whole
        if flow is not None:
            block = second // BLOCK
            ahead = block > newest.get(flow, -1)
            newest[flow] = max(block, newest.get(flow, -1))
            changed = marked(whole, option(flow, block, ahead))
        yield second, front + whole, front + changed


def captures(head, record):
    """The two captures, by how a file header and a record are written."""
    seen = list(frames())
    plain = head + b"".join(record(second, 0, frame) for second, frame, _ in seen)
    return plain, head + b"".join(record(second, 0, frame) for second, _, frame in seen)
