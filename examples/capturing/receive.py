#!/usr/bin/env python3
"""receive.py PORT SECONDS

Receives the packets of send.py, and prints how many came of each block, by the number in their payload.
"""
import collections
import socket
import struct
import sys
import time

port, seconds = int(sys.argv[1]), float(sys.argv[2])
sock = socket.socket(socket.AF_INET6, socket.SOCK_DGRAM)
sock.setsockopt(socket.SOL_SOCKET, socket.SO_RCVBUF, 1 << 20)
sock.bind(("::", port))
received = collections.Counter()
end = time.monotonic() + seconds
while (left := end - time.monotonic()) > 0:
    sock.settimeout(left)
    try:
        packet = sock.recv(100)
    except TimeoutError:
        break
    received[struct.unpack(">Q", packet[:8])[0]] += 1
for block in sorted(received):
    print(block, received[block])
