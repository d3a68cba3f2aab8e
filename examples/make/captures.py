#!/usr/bin/env python3
"""Writes the example captures, those that are shown with what the program says of them beside them: two/, chains/, forms/,
mixed/, mark/, split/ and bad/.

    captures.py [FOLDER]

FOLDER is where these folders are written, and examples/ if left out. What is written is always the same, so that the files
that are kept there can be held against it. What the program must say stands below beside
each packet, and comes from the rules of docs/formats.md; the program plays no part in it.
"""
import os
import struct
import sys

import insertion

# A file header: magic of microseconds, version 2.4, zone, accuracy, snapshot length 262144, link type 101 (raw IP).
HEAD = bytes.fromhex("d4c3b2a1 02000400 00000000 00000000 00000400 65000000")

# What the form of a capture is made of: which byte of a number comes first, as struct has it; the magic, and how many
# nanoseconds a fraction counts; the link type.
ORDERS = {"little": "<", "big": ">"}
UNITS = {"micro": (0xA1B2C3D4, 1000), "nano": (0xA1B23C4D, 1)}
LINKS = {"ethernet": 1, "ip": 101, "ipv6": 229}

ADDRESSES = bytes.fromhex("20010db8000100000000000000000001" "20010db8000200000000000000000001")


def packet(data, *, version=6, payload=8, following=0, length=0, option="1204", tail=b""):
    """An IPv6 packet of a fixed header and a Hop-by-Hop header that holds one option, whose data are four bytes."""
    fixed = struct.pack(">BBHHBB", version << 4, 0, 0, payload, following, 64)
    return fixed + ADDRESSES + bytes([0x3B, length]) + bytes.fromhex(option + data) + tail


def record(seconds, fraction, bytes_, *, captured=None, original=None, order="little"):
    """A record of a capture: 16 bytes of header and the captured bytes."""
    captured = len(bytes_) if captured is None else captured
    original = len(bytes_) if original is None else original
    return struct.pack(ORDERS[order] + "IIII", seconds, fraction, captured, original) + bytes_


def marked(seconds, fraction, data):
    return record(seconds, fraction, packet(data))


# Flow 0x12345 with the loss bit clear and set, and the same with the delay bit.
CLEAR, SET, CLEAR_DELAY, SET_DELAY = "12345000", "12345800", "12345400", "12345c00"

U_SEEN = [(1, CLEAR_DELAY), (2, CLEAR), (11, SET_DELAY), (12, SET), (13, SET), (21, CLEAR_DELAY)]
V_SEEN = [(1, CLEAR_DELAY), (2, CLEAR), (11, SET_DELAY), (13, SET), (21, CLEAR_DELAY)]

U = HEAD + b"".join(marked(seconds, 0, data) for seconds, data in U_SEEN)
V = HEAD + b"".join(marked(seconds, 500, data) for seconds, data in V_SEEN)

GOOD = marked(1, 0, CLEAR)

# What `show` prints of them.
U_SHOWN = """\
1 1000000000 48 48 ip6 0:8,=59 74565/0/1 -
2 2000000000 48 48 ip6 0:8,=59 74565/0/0 -
3 11000000000 48 48 ip6 0:8,=59 74565/1/1 -
4 12000000000 48 48 ip6 0:8,=59 74565/1/0 -
5 13000000000 48 48 ip6 0:8,=59 74565/1/0 -
6 21000000000 48 48 ip6 0:8,=59 74565/0/1 -
"""
V_SHOWN = """\
1 1000500000 48 48 ip6 0:8,=59 74565/0/1 -
2 2000500000 48 48 ip6 0:8,=59 74565/0/0 -
3 11000500000 48 48 ip6 0:8,=59 74565/1/1 -
4 13000500000 48 48 ip6 0:8,=59 74565/1/0 -
5 21000500000 48 48 ip6 0:8,=59 74565/0/1 -
"""
GOOD_SHOWN = "1 1000000000 48 48 ip6 0:8,=59 74565/0/0 -\n"


# Numbers of headers: those that are walked, and some that end a chain.
HOP_BY_HOP, ROUTING, DESTINATION = 0, 43, 60
TCP, UDP, IP6, FRAGMENT, ESP, AH, NONE = 6, 17, 41, 44, 50, 51, 59


def ip6(following, behind=b"", *, payload=None):
    """An IPv6 packet: the fixed header, which announces what follows it, and the bytes behind it. Its payload length counts
    these, unless told."""
    payload = len(behind) if payload is None else payload
    return struct.pack(">BBHHBB", 0x60, 0, 0, payload, following, 64) + ADDRESSES + behind


def header(following, *options):
    """A header of options, which fill it to a multiple of eight bytes."""
    area = bytes.fromhex("".join(options))
    assert len(area) % 8 == 6 and len(area) <= 2046
    return bytes([following, len(area) // 8]) + area


def mark(data):
    return "1204" + data


# Other options: Pad1, PadN with no data and with data, the Router Alert of RFC 2711.
PAD1, PAD2, PAD4, PAD6 = "00", "0100", "01020000", "010400000000"
PAD7, PAD4_DATA, PAD257 = "01050000000000", "0102ffee", "01ff" + 255 * "00"
ALERT = "05020000"

# A header with a mark that stands last in its chain.
MARKED = header(NONE, mark(CLEAR))

# A Routing header of 24 bytes (RFC 6275, section 6.4), a Fragment header, an ESP header, an AH, and a UDP header.
ROUTE = bytes.fromhex("3c020201 00000000 20010db8000300000000000000000001")
PIECE = bytes.fromhex("3c00000000000001")
SEALED = bytes.fromhex("0000000100000001") + bytes(16)
SIGNED = bytes.fromhex("3c04000000000001 00000001") + bytes(12)
DATAGRAM = bytes.fromhex("3039003500080000")

# The longest header there is, with a mark near its end, and one of 24 bytes.
LONGEST = header(NONE, *[PAD257] * 7, "01ee" + 238 * "00", mark(SET), PAD1)
MARKED_24 = header(NONE, mark(CLEAR), PAD6, PAD2, PAD6, PAD2)

# The records of chains/: what `show` prints of the packet, the captured bytes, and how long it was where it wasn't captured
# whole. Record n is read at second n.
CHAINS = [
    # 1 to 9: the headers that are walked, and the marks in them.
    ("ip6 =59 - -", ip6(NONE)),
    ("ip6 0:8,=59 74565/0/1 -", ip6(HOP_BY_HOP, header(NONE, mark(CLEAR_DELAY)))),
    ("ip6 60:8,=59 - 74565/1/0", ip6(DESTINATION, header(NONE, mark(SET)))),
    ("ip6 0:8,60:8,=59 74565/1/1 1048575/1/1", ip6(HOP_BY_HOP, header(DESTINATION, mark(SET_DELAY)) + header(NONE, mark("fffffc00")))),
    ("ip6 60:8,43:24,60:8,=59 - 74565/0/0", ip6(DESTINATION, header(ROUTING, PAD6) + ROUTE + MARKED)),
    ("ip6 60:8,60:8,=59 - 74565/1/1", ip6(DESTINATION, header(DESTINATION, mark(SET_DELAY)) + MARKED)),
    ("ip6 0:8,=17 - -", ip6(HOP_BY_HOP, header(UDP, ALERT, PAD2) + DATAGRAM)),
    ("ip6 0:2048,=59 74565/1/0 -", ip6(HOP_BY_HOP, LONGEST)),
    ("ip6 =59 - -", ip6(NONE) + bytes(6)),
    # 10 to 16: what ends a chain. No header and no mark behind it is looked at.
    ("ip6 60:8,=0 - -", ip6(DESTINATION, header(HOP_BY_HOP, PAD6) + MARKED)),
    ("ip6 0:8,=44 74565/0/0 -", ip6(HOP_BY_HOP, header(FRAGMENT, mark(CLEAR)) + PIECE + MARKED)),
    ("ip6 60:8,=51 - 74565/0/0", ip6(DESTINATION, header(AH, mark(CLEAR)) + SIGNED + MARKED)),
    ("ip6 =50 - -", ip6(ESP, SEALED)),
    ("ip6 0:8,60:8,=17 - 74565/1/0", ip6(HOP_BY_HOP, header(DESTINATION, ALERT, PAD2) + header(UDP, mark(SET)) + DATAGRAM)),
    ("ip6 =41 - -", ip6(IP6, ip6(HOP_BY_HOP, MARKED))),
    ("ip6 0:8,=6 74565/0/0 -", ip6(HOP_BY_HOP, header(TCP, mark(CLEAR)), payload=1408), 1448),
    # 17 to 21: a header of which bytes were not captured.
    ("ip6 cut cut cut", ip6(HOP_BY_HOP, MARKED_24)[:56], 64),
    ("ip6 cut - cut", ip6(DESTINATION, MARKED_24)[:56], 64),
    ("ip6 0:8,cut 74565/0/0 cut", ip6(HOP_BY_HOP, header(DESTINATION, mark(CLEAR)) + MARKED_24)[:52], 72),
    ("ip6 60:8,cut - 74565/0/0", ip6(DESTINATION, header(ROUTING, mark(CLEAR)) + ROUTE)[:49], 72),
    ("ip6 cut cut cut", ip6(HOP_BY_HOP, MARKED)[:40], 48),
    # 22 to 27: a header whose bytes the packet doesn't have.
    ("ip6 bad@40 - -", ip6(HOP_BY_HOP, MARKED_24, payload=24)[:56]),
    ("ip6 0:8,bad@48 74565/0/0 -", ip6(HOP_BY_HOP, header(DESTINATION, mark(CLEAR)) + MARKED, payload=8)),
    ("ip6 0:8,bad@48 74565/0/0 -", ip6(HOP_BY_HOP, header(DESTINATION, mark(CLEAR)) + MARKED_24, payload=31)),
    ("ip6 60:8,bad@48 - 74565/0/0", ip6(DESTINATION, header(ROUTING, mark(CLEAR)) + ROUTE, payload=9)[:49], 72),
    ("ip6 bad@40 - -", ip6(HOP_BY_HOP, payload=0), 1500),
    ("ip6 bad@40 - -", ip6(DESTINATION, MARKED_24)[:48], 40),
    # 28 to 32: what isn't an option list. Nothing of its header counts, not even a mark.
    ("ip6 bad@42 - -", ip6(HOP_BY_HOP, header(NONE, "010900000000"))),
    ("ip6 bad@48 - -", ip6(HOP_BY_HOP, header(NONE, mark(CLEAR), "0109000000000000"))),
    ("ip6 bad@47 - -", ip6(HOP_BY_HOP, header(NONE, PAD1, PAD4, "05"))),
    ("ip6 0:8,bad@51 74565/0/0 -", ip6(HOP_BY_HOP, header(DESTINATION, mark(CLEAR)) + header(NONE, PAD1, "0504000000"))),
    ("ip6 bad@42 - -", ip6(DESTINATION, header(NONE, "120500000000"))),
    # 33 to 39: which option is the mark.
    ("ip6 0:24,=59 74565/1/1 -", ip6(HOP_BY_HOP, header(NONE, PAD1, PAD4_DATA, ALERT, mark(SET_DELAY), PAD7))),
    ("ip6 0:16,=59 74565/0/0 -", ip6(HOP_BY_HOP, header(NONE, mark(CLEAR), PAD2, mark("fffffc00")))),
    ("ip6 0:16,=59 - -", ip6(HOP_BY_HOP, header(NONE, "12051234580000", PAD7))),
    ("ip6 0:16,=59 74565/1/0 -", ip6(HOP_BY_HOP, header(NONE, "12030000ff", mark(SET), PAD1, PAD2))),
    ("ip6 0:8,=59 - -", ip6(HOP_BY_HOP, header(NONE, "320412345800"))),
    ("ip6 0:8,=59 74565/1/0 -", ip6(HOP_BY_HOP, header(NONE, mark("12345bff")))),
    ("ip6 0:8,=59 0/0/0 -", ip6(HOP_BY_HOP, header(NONE, mark("000003ff")))),
    # 40 to 46: no IPv6 packet, or not all of its fixed header.
    ("other", packet(CLEAR, version=4)),
    ("other", packet(CLEAR, version=4)[:20], 60),
    ("cut", b"", 48),
    ("other", b"", 0),
    ("ip6 cut cut cut", ip6(HOP_BY_HOP, MARKED)[:20], 48),
    ("ip6 bad@20 - -", ip6(HOP_BY_HOP, MARKED)[:20]),
    ("ip6 cut cut cut", ip6(NONE)[:1], 40),
]

# A segment routing header of 24 bytes (RFC 8754), with one segment that is still to come.
SEGMENTS = bytes.fromhex("3c020401 00000000 20010db8000300000000000000000001")

# Three more, with times of their own: a fraction of more than a million, the latest time, and a microsecond after a second, of
# a packet between whose two Destination headers stands that header, and of which the first 80 bytes of 1,280 were captured.
LAST = [
    ("47 48000001000 40 40 ip6 =59 - -", record(47, 1000001, ip6(NONE))),
    ("48 4294971589967295000 40 40 ip6 =59 - -", record(4294967295, 4294967295, ip6(NONE))),
    (
        "49 7000001000 80 1280 ip6 60:8,43:24,60:8,=17 - 1048575/1/0",
        record(7, 1, ip6(DESTINATION, header(ROUTING, PAD6) + SEGMENTS + header(UDP, mark("fffff803")), payload=1240), original=1280),
    ),
]


def chains():
    """The capture of these records, and what `show` prints of it."""
    capture, shown = HEAD, ""
    for number, (text, bytes_, *original) in enumerate(CHAINS, 1):
        length = original[0] if original else len(bytes_)
        capture += record(number, 0, bytes_, original=length)
        shown += f"{number} {number}000000000 {len(bytes_)} {length} {text}\n"
    for text, record_ in LAST:
        capture += record_
        shown += f"{text}\n"
    return capture, shown


def first(count, text):
    """So many lines of a text."""
    return "".join(text.splitlines(keepends=True)[:count])


def file_head(order, unit, link):
    """A file header in this form, with zone and accuracy 0 and the snapshot length 262144."""
    return struct.pack(ORDERS[order] + "IHHIIII", UNITS[unit][0], 2, 4, 0, 0, 262144, LINKS[link])


# An Ethernet header is two addresses and the type of what follows. A tag is a type of its own and two bytes more, and
# stands before that type (IEEE 802.1Q).
STATIONS = bytes.fromhex("020000000002 020000000001")
TYPE_IP6, TYPE_IP4, TYPE_ARP, TYPE_MPLS = "86dd", "0800", "0806", "8847"
TAG, SERVICE_TAG = "81000064", "88a800c8"


def frame(packet_, *, kind=TYPE_IP6, tags=""):
    """An Ethernet frame: 14 bytes and 4 for each tag, then the packet."""
    return STATIONS + bytes.fromhex(tags + kind) + packet_


# Which of the Ethernet forms have tags in their frames. The other two have none.
TAGGED = {("little", "nano"): TAG, ("big", "micro"): SERVICE_TAG + TAG}


def forms():
    """The records of two/ in each of the twelve forms: name, capture, and what `show` prints of it. The readings and the
    packets are the same, so in raw IP and raw IPv6 the lines are those of two/. A frame's header counts in both lengths."""
    for name, late, seen, shown in [("u", 0, U_SEEN, U_SHOWN), ("v", 500, V_SEEN, V_SHOWN)]:
        for order in ORDERS:
            for unit, (_, counts) in UNITS.items():
                for link in LINKS:
                    capture, lines = file_head(order, unit, link), shown
                    tags = TAGGED.get((order, unit), "")
                    for seconds, data in seen:
                        bytes_ = packet(data) if link != "ethernet" else frame(packet(data), tags=tags)
                        capture += record(seconds, late * 1000 // counts, bytes_, order=order)
                    if link == "ethernet":
                        length = {"": 62, TAG: 66, SERVICE_TAG + TAG: 70}[tags]
                        lines = shown.replace(" 48 48 ", f" {length} {length} ")
                    yield f"{name}-{order}-{unit}-{link}", capture, lines
    # Whatever stands in the fields that are ignored: zone, accuracy, snapshot length, upper half of the link type.
    yield "u-ignored-fields", HEAD[:8] + 12 * b"\xff" + bytes.fromhex("6500ffff") + U[24:], U_SHOWN


# The flow's packets of two/ among other traffic. A record is: second, what `show` prints of the packet, the captured bytes,
# and how long it was where it wasn't captured whole. Those that `link` counts for flow 74565 stand first in their second.
# An IPv4 packet of 28 bytes, an ARP request (RFC 826), an empty MLD report (RFC 3810).
IP4 = bytes.fromhex("4500001c 00000000 40110000 c0000201 c0000202 3039003500080000")
ARP = bytes.fromhex("0001080006040001 020000000001 c0000201 000000000000 c0000202")
REPORT = bytes.fromhex("8f00000000000000")
ICMP6 = 58

MIXED_U = [
    (1, "48 48 ip6 0:8,=59 74565/0/1 -", packet(CLEAR_DELAY)),
    (1, "28 28 other", IP4),
    (2, "64 64 ip6 0:16,=17 74565/0/0 -", ip6(HOP_BY_HOP, header(UDP, ALERT, mark(CLEAR), PAD4) + DATAGRAM)),
    (2, "64 1500 ip6 =6 - -", ip6(TCP, bytes(24), payload=1460), 1500),
    (2, "48 48 ip6 0:8,=59 74566/0/0 -", packet("12346000")),
    (3, "48 48 ip6 60:8,=59 - 74565/0/0", ip6(DESTINATION, MARKED)),
    (3, "56 56 ip6 0:8,=17 - -", ip6(HOP_BY_HOP, header(UDP, ALERT, PAD2) + DATAGRAM)),
    # Colour 1 before second 5: no block of that colour has a window so early.
    (4, "48 48 ip6 0:8,=59 74565/1/0 -", packet(SET)),
    (5, "56 56 ip6 0:16,=59 - -", ip6(HOP_BY_HOP, header(NONE, "12051234580000", PAD7))),
    (6, "56 56 ip6 bad@48 - -", ip6(HOP_BY_HOP, header(NONE, mark(CLEAR), "0109000000000000"))),
    (7, "48 48 ip6 bad@40 - -", packet(CLEAR, payload=7)),
    (8, "56 64 ip6 cut - cut", ip6(DESTINATION, MARKED_24)[:56], 64),
    (9, "88 88 ip6 =41 - -", ip6(IP6, ip6(HOP_BY_HOP, MARKED))),
    (11, "48 48 ip6 0:8,=59 74565/1/1 -", packet("12345fff")),
    (12, "48 1448 ip6 0:8,=6 74565/1/0 -", ip6(HOP_BY_HOP, header(TCP, mark(SET)), payload=1408), 1448),
    (13, "52 72 ip6 0:8,cut 74565/1/0 cut", ip6(HOP_BY_HOP, header(DESTINATION, mark(SET)) + MARKED_24)[:52], 72),
    (14, "48 48 other", packet(SET, version=4)),
    (15, "0 0 other", b""),
    (16, "20 20 ip6 bad@20 - -", packet(SET)[:20]),
    (21, "56 56 ip6 0:16,=59 74565/0/1 -", ip6(HOP_BY_HOP, header(NONE, mark(CLEAR_DELAY), PAD2, mark("fffffc00")))),
]

MIXED_V = [
    (1, "62 62 ip6 0:8,=59 74565/0/1 -", frame(packet(CLEAR_DELAY))),
    (1, "60 60 other", frame(ARP + bytes(18), kind=TYPE_ARP)),
    (2, "66 66 ip6 0:8,=59 74565/0/0 -", frame(packet(CLEAR), tags=TAG)),
    (2, "60 60 other", frame(IP4 + bytes(18), kind=TYPE_IP4)),
    (3, "60 60 ip6 =59 - -", frame(ip6(NONE) + bytes(6))),
    (4, "70 70 ip6 0:8,=58 - -", frame(ip6(HOP_BY_HOP, header(ICMP6, ALERT, PAD2) + REPORT))),
    (11, "70 70 ip6 0:8,=59 74565/1/1 -", frame(packet(SET_DELAY), tags=SERVICE_TAG + TAG)),
    (11, "74 74 other", frame(packet(SET), tags=SERVICE_TAG + TAG + TAG)),
    (12, "66 66 other", frame(bytes(4) + packet(SET), kind=TYPE_MPLS)),
    (12, "60 60 other", frame(bytes(46), kind="0026")),
    (12, "10 10 other", frame(packet(SET))[:10]),
    (12, "16 16 other", frame(packet(SET), tags=TAG)[:16]),
    # Four bytes of a check sequence behind the packet.
    (13, "66 66 ip6 0:8,=59 74565/1/0 -", frame(packet(SET) + bytes.fromhex("2f8a61b3"))),
    (14, "42 42 ip6 bad@0 - -", frame(IP4)),
    (15, "14 14 ip6 bad@0 - -", frame(b"")),
    (16, "70 78 ip6 cut - cut", frame(ip6(DESTINATION, MARKED_24))[:70], 78),
    (21, "62 62 ip6 0:8,=59 74565/0/1 -", frame(packet(CLEAR_DELAY))),
]


def mixed():
    """Both captures by name, with what `show` prints of each: UP in raw IP, read on the second, and DOWN in Ethernet with
    the highest byte first, read half a millisecond later."""
    for name, order, unit, link, late, records in [
        ("u", "little", "micro", "ip", 0, MIXED_U),
        ("v", "big", "nano", "ethernet", 500000, MIXED_V),
    ]:
        capture, shown = file_head(order, unit, link), ""
        for number, (second, text, bytes_, *original) in enumerate(records, 1):
            capture += record(second, late, bytes_, original=original[0] if original else None, order=order)
            shown += f"{number} {second}{late:09} {text}\n"
        yield name, capture, shown


# The captures of split/: when each packet passed, in microseconds after its second, and which of the five packets did. Packet
# n enters at second n, all in block 0; the first has the delay bit. Packets 3 and 5 end at b.
SPLIT = [
    ("a", 0, [1, 2, 3, 4, 5]),
    ("b", 500, [1, 2, 3, 4, 5]),
    ("b-on", 500, [1, 2, 4]),
    ("b-here", 500, [3, 5]),
    ("c", 1000, [1, 2, 4]),
]


def split():
    """Each of these captures by name."""
    for name, late, packets in SPLIT:
        yield name, HEAD + b"".join(marked(n, late, CLEAR_DELAY if n == 1 else CLEAR) for n in packets)


# Files that both commands refuse, by name, which says the fault: what the line says behind the file's name, the bytes, and
# the lines that `show` prints before it refuses.
GZIP = bytes.fromhex("1f8b0800") + bytes(26)
PCAPNG = bytes.fromhex("0a0d0d0a 1c000000 4d3c2b1a 01000000 ffffffffffffffff 1c000000")
BIG = bytes.fromhex("a1b2c3d4 00020004 00000000 00000000 00040000 00000065")
TOO_LONG = record(2, 0, packet(CLEAR), captured=262145, original=262145)


def linked(number):
    """A capture whose file header has this link type, all 32 bits of it."""
    return HEAD[:20] + struct.pack("<I", number) + GOOD


BROKEN = [
    ("empty", "file ends in record 0", b"", ""),
    ("head-cut", "file ends in record 0", HEAD[:23], ""),
    ("head-cut-gzip", "file ends in record 0", GZIP[:23], ""),
    ("magic-gzip", "bad magic", GZIP, ""),
    ("magic-pcapng", "bad magic", PCAPNG, ""),
    ("magic-modified", "bad magic", bytes.fromhex("34cdb2a1") + HEAD[4:] + GOOD, ""),
    ("magic-halves-exchanged", "bad magic", bytes.fromhex("b2a1d4c3") + HEAD[4:] + GOOD, ""),
    ("magic-before-version", "bad magic", bytes.fromhex("1f8b080002000300") + HEAD[8:] + GOOD, ""),
    ("version-2-3", "bad version", HEAD[:6] + bytes.fromhex("0300") + HEAD[8:] + GOOD, ""),
    ("version-3-4", "bad version", HEAD[:4] + bytes.fromhex("0300") + HEAD[6:] + GOOD, ""),
    ("version-in-other-order", "bad version", HEAD[:4] + BIG[4:8] + HEAD[8:] + GOOD, ""),
    ("version-before-link", "bad version", HEAD[:6] + bytes.fromhex("0300") + HEAD[8:20] + bytes.fromhex("71000000"), ""),
    ("link-loopback", "unknown link type 0", linked(0), ""),
    ("link-cooked", "unknown link type 113", linked(113), ""),
    ("link-cooked-2", "unknown link type 276", linked(276), ""),
    ("link-greatest", "unknown link type 65535", linked(65535), ""),
    ("link-upper-bits", "unknown link type 113", linked(0x24000071), ""),
    ("link-in-other-order", "unknown link type 0", HEAD[:20] + BIG[20:] + GOOD, ""),
    ("record-header-cut", "file ends in record 3", U[:162], first(2, U_SHOWN)),
    ("record-bytes-cut", "file ends in record 6", U[:407], first(5, U_SHOWN)),
    ("record-too-long", "record 2 is too long: 262145", HEAD + GOOD + TOO_LONG, GOOD_SHOWN),
    ("record-too-long-cut", "record 2 is too long: 262145", HEAD + GOOD + TOO_LONG[:16], GOOD_SHOWN),
    ("record-of-other-order", "record 2 is too long: 805306368", HEAD + GOOD + record(2, 0, packet(CLEAR), order="big"), GOOD_SHOWN),
    ("record-big-endian-cut", "file ends in record 1", BIG + record(1, 0, packet(CLEAR), order="big")[:63], ""),
]

# Records whose frame or Hop-by-Hop header has bytes that weren't captured, by the name of a file in which one of them stands
# behind a good one: the bytes, how long it was, and what `show` prints of it. `link` refuses that file, and `show` doesn't.
CUT_PACKETS = [
    ("headers-cut", packet(CLEAR)[:44], 48, "ip6 cut cut cut"),
    ("headers-cut-by-a-byte", packet(CLEAR)[:47], 48, "ip6 cut cut cut"),
    ("headers-cut-of-another-flow", packet("fffff000")[:47], 48, "ip6 cut cut cut"),
    ("headers-cut-in-fixed-header", ip6(NONE)[:39], 40, "ip6 cut cut cut"),
    ("packet-not-captured", b"", 48, "cut"),
]
CUT_FRAMES = [
    ("frame-cut", frame(IP4, kind=TYPE_IP4)[:10], 60, "cut"),
    ("frame-cut-in-tags", frame(packet(CLEAR), tags=SERVICE_TAG + TAG)[:21], 70, "cut"),
    ("frame-cut-in-packet", frame(packet(CLEAR))[:61], 62, "ip6 cut cut cut"),
]


def cut_headers():
    """Each of these files by name: its bytes, and all that `show` writes of it."""
    good_frame = file_head("little", "micro", "ethernet") + record(1, 0, frame(packet(CLEAR)))
    for front, shown, records in [
        (HEAD + GOOD, GOOD_SHOWN, CUT_PACKETS),
        (good_frame, GOOD_SHOWN.replace(" 48 48 ", " 62 62 "), CUT_FRAMES),
    ]:
        for name, bytes_, original, text in records:
            capture = front + record(2, 0, bytes_, original=original)
            yield name, capture, shown + f"2 2000000000 {len(bytes_)} {original} {text}\n"
    # The same as the first, and the file ends in record 3.
    name, (_, bytes_, original, text) = "headers-cut-before-file-ends", CUT_PACKETS[0]
    capture = HEAD + GOOD + record(2, 0, bytes_, original=original) + GOOD[:63]
    yield name, capture, GOOD_SHOWN + f"2 2000000000 {len(bytes_)} {original} {text}\n" + line(name, "file ends in record 3")


def line(name, refusal):
    return f"altmark: {name}.pcap: {refusal}\n"


def bad():
    """Each bad file by name: its bytes, the line that `link` writes of it, and all that `show` writes of it."""
    for name, refusal, bytes_, printed in BROKEN:
        yield name, bytes_, line(name, refusal), printed + line(name, refusal)
    for name, bytes_, shown in cut_headers():
        yield name, bytes_, line(name, "headers of record 2 are cut"), shown


def files():
    assert (len(HEAD), len(packet(CLEAR)), len(GOOD), len(U), len(V)) == (24, 48, 64, 408, 344)
    assert file_head("little", "micro", "ip") == HEAD and file_head("big", "micro", "ip") == BIG
    assert len(LONGEST) == 2048 and len(MARKED_24) == 24 and MARKED == packet(CLEAR)[40:]
    yield "two/u.pcap", U
    yield "two/u.txt", U_SHOWN.encode()
    yield "two/v.pcap", V
    yield "two/v.txt", V_SHOWN.encode()
    capture, shown = chains()
    yield "chains/chains.pcap", capture
    yield "chains/chains.txt", shown.encode()
    for name, capture, shown in forms():
        yield f"forms/{name}.pcap", capture
        yield f"forms/{name}.txt", shown.encode()
    for name, capture, shown in mixed():
        yield f"mixed/{name}.pcap", capture
        yield f"mixed/{name}.txt", shown.encode()
    plain, with_marks = insertion.captures(file_head("little", "micro", "ethernet"), record)
    yield "mark/plain.pcap", plain
    yield "mark/marked.pcap", with_marks
    for name, capture in split():
        yield f"split/{name}.pcap", capture
    for name, bytes_, refused, shown in bad():
        yield f"bad/{name}.pcap", bytes_
        yield f"bad/{name}.line", refused.encode()
        yield f"bad/{name}.shown", shown.encode()


def main(words):
    folder = words[0] if words else os.path.dirname(os.path.dirname(os.path.realpath(__file__)))
    for name, bytes_ in files():
        path = os.path.join(folder, name)
        os.makedirs(os.path.dirname(path), exist_ok=True)
        with open(path, "wb") as out:
            out.write(bytes_)


if __name__ == "__main__":
    main(sys.argv[1:])
