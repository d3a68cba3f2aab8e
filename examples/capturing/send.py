#!/usr/bin/env python3
"""send.py ADDRESS PORT FLOW BLOCK SECONDS RATE

Sends UDP packets that carry the AltMark Option in a Hop-by-Hop header, RATE in a second, and prints how many it sent in
each block. The colour changes with each block of BLOCK nanoseconds of the system's clock. A packet's payload is the number
of its block, so that a receiver can count the packets of each block without looking at the marks. Only root may set the
header.
"""
import collections
import socket
import struct
import sys
import time

address, port = sys.argv[1], int(sys.argv[2])
flow, block_ns, seconds, rate = (int(word) for word in sys.argv[3:])
IPV6_HOPOPTS = 54  # the socket option of Linux
sock = socket.socket(socket.AF_INET6, socket.SOCK_DGRAM)
sent = collections.Counter()
end = time.time_ns() + seconds * 10**9
due = time.monotonic()
while (now := time.time_ns()) < end:
    block = now // block_ns
    first = block not in sent
    # 20 bits of flow, the colour, the delay bit (set on the first packet of a block), ten zeros
    mark = flow << 12 | (block & 1) << 11 | first << 10
    # Next Header and length of the header, which the system fills in; then type 0x12, length 4 and the mark
    header = bytes([0, 0, 0x12, 4]) + struct.pack(">I", mark)
    sock.setsockopt(socket.IPPROTO_IPV6, IPV6_HOPOPTS, header)
    sock.sendto(struct.pack(">Q", block), (address, port))
    sent[block] += 1
    due += 1 / rate
    time.sleep(max(0, due - time.monotonic()))
for block in sorted(sent):
    print(block, sent[block])
