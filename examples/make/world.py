#!/usr/bin/env python3
"""Makes the world of a domain that `sim` makes from a number, without the program: packets that cross the domain's
network, and those of them that are dropped.

    world.py DOMAIN NUMBER PACKETS FOLDER     writes the capture of each node into FOLDER, by its name in the domain
    world.py DOMAIN NUMBER PACKETS --drops    prints how many packets are dropped in each scope: scope,dropped
    world.py DOMAIN NUMBER PACKETS --sim      prints what `sim` prints

What is written is always the same for the same words. Drops are counted from the ways of the packets, and no capture is
read for that. `sim` reports each of them, so --sim has them in both columns. The domain file is read as those in
examples/ are written: a key a line. It has to be one that `check` accepts.

How a world is made:

- Numbers are drawn one after another. The one that is kept, at first NUMBER, is multiplied by 6364136223846793005, and
  1442695040888963407 is added, modulo 2^64. A draw of so many is the kept number divided by 65536, modulo so many.
- Packets enter at the nodes at which no link ends. They are spread evenly over the reported blocks, behind half the
  skew. Of each the flow is drawn, and then the node where it enters.
- A clock is half the skew fast at nodes of an even number, and half the skew slow at the others.
- A packet has the colour of the block of its reading where it enters. It has the delay bit where that block is later
  than those of all packets of its flow before it that entered there.
- Where links begin, it is lost if it made sixteen hops, and else if a draw of fifty is 0. Else the link is drawn, and
  then its delay from the entry on, from the least to the greatest; but no delay is less than that of the hop before.
- Where no link begins, the packet has left the network.
"""
import ipaddress
import os
import struct
import sys
from collections import Counter, namedtuple

MOST_HOPS, LOSS_ODDS = 16, 50

# The kind of header that has the mark, by the number that announces it.
PLACES = {"hop-by-hop": 0, "destination": 60}

# A little-endian capture of nanoseconds and of raw IP.
HEAD = struct.pack("<IHHIIII", 0xA1B23C4D, 2, 4, 0, 0, 262144, 101)

# The domain: the numbers of time, the number that announces the marks' header, the flows and nodes as tables of their
# keys, the links as pairs of node numbers, and the reported blocks.
Domain = namedtuple("Domain", "block skew delay_min delay_max kind flows nodes links blocks")

# A packet: its flow's number, the block in which it entered, whether it has the delay bit, the nodes that it passed,
# each with the reading there, and the node at which it was lost, if it was.
Packet = namedtuple("Packet", "flow block delayed passed lost")


def read_tables(lines):
    """The tables of a domain file, by the names of their parts."""
    parts = {}
    for line in lines:
        line = line.split("#")[0].strip()
        if line.startswith("["):
            table = {}
            parts.setdefault(line.strip("[]"), []).append(table)
        elif line:
            key, value = (side.strip() for side in line.split("=", 1))
            table[key] = value.strip('"') if value.startswith('"') else int(value)
    return parts


def covered(node, shift, block):
    """The blocks whose windows the capture of the node has whole: from half a block before a block begins until half a
    block after it ends, both later by the shift. No reading is below 0."""
    half = block // 2
    first = -((shift - half - node["from_ns"]) // block) if node["from_ns"] else 0
    return range(max(first, 0), max((node["until_ns"] - half - shift) // block, 0))


def read_domain(name):
    with open(name, encoding="utf-8") as file:
        parts = read_tables(file)
    (timing,), (marking,) = parts["timing"], parts["marking"]
    block, delay_min = timing["block_ns"], timing["delay_min_ns"]
    names = [node["name"] for node in parts["node"]]
    links = [(names.index(link["from"]), names.index(link["to"])) for link in parts["link"]]
    reached = {end for _, end in links}
    spans = [covered(node, delay_min if at in reached else 0, block) for at, node in enumerate(parts["node"])]
    blocks = range(max(span.start for span in spans), min(span.stop for span in spans))
    times = block, timing["skew_ns"], delay_min, timing["delay_max_ns"]
    return Domain(*times, PLACES[marking["place"]], parts["flow"], parts["node"], links, blocks)


def clusters(links):
    """For each cluster, in order, the nodes at which its links begin. Two links are in one cluster where both begin or
    both end at one node, and where such links lead from one to the other."""
    of = list(range(len(links)))
    for one, (start, end) in enumerate(links):
        for other, (begin, stop) in enumerate(links[:one]):
            if start == begin or end == stop:
                old, new = max(of[one], of[other]), min(of[one], of[other])
                of = [new if cluster == old else cluster for cluster in of]
    return [{links[at][0] for at, least in enumerate(of) if least == cluster} for cluster in sorted(set(of))]


class Draws:
    def __init__(self, number):
        self.kept = number

    def draw(self, count):
        self.kept = (self.kept * 6364136223846793005 + 1442695040888963407) % 2**64
        return self.kept // 65536 % count


def reading(domain, node, time):
    """What the clock of a node shows."""
    half = domain.skew // 2
    return time - half if node % 2 else time + half


def journey(domain, leaving, draws, node, sent):
    """The nodes that a packet passes behind the one where it enters, each with its reading, and the node at which it is
    lost, if it is."""
    passed, delay = [], 0
    while leaving[node]:
        if len(passed) == MOST_HOPS or draws.draw(LOSS_ODDS) == 0:
            return passed, node
        node = leaving[node][draws.draw(len(leaving[node]))]
        delay = max(delay, domain.delay_min + draws.draw(domain.delay_max - domain.delay_min + 1))
        passed.append((node, reading(domain, node, sent + delay)))
    return passed, None


def packets(domain, number, count):
    """The packets of the world, in the order in which they are made."""
    draws, newest = Draws(number), {}
    leaving = [[end for start, end in domain.links if start == node] for node in range(len(domain.nodes))]
    reached = {end for _, end in domain.links}
    entries = [node for node in range(len(domain.nodes)) if node not in reached]
    for at in range(count if entries else 0):
        flow = draws.draw(len(domain.flows))
        entry = entries[draws.draw(len(entries))]
        sent = domain.blocks.start * domain.block + domain.skew // 2 + at * len(domain.blocks) * domain.block // count
        entered = reading(domain, entry, sent)
        block = entered // domain.block
        delayed = block > newest.get((flow, entry), -1)
        newest[flow, entry] = max(block, newest.get((flow, entry), -1))
        passed, lost = journey(domain, leaving, draws, entry, sent)
        yield Packet(flow, block, delayed, [(entry, entered), *passed], lost)


def packet_bytes(domain, packet):
    """The packet on the wire: the IPv6 header with the first address of each prefix, and a header with the mark."""
    flow = domain.flows[packet.flow]
    prefixes = (ipaddress.IPv6Network(flow[end], strict=False) for end in ("source", "destination"))
    fixed = struct.pack(">IHBB", 0x60000000, 8, domain.kind, 64) + b"".join(prefix[0].packed for prefix in prefixes)
    # The flow's number has 20 bits. The loss bit, which is the colour of the block, and the delay bit follow it.
    mark = flow["id"] << 12 | (packet.block & 1) << 11 | packet.delayed << 10
    return fixed + bytes.fromhex("3b001204") + struct.pack(">I", mark)


def captures(domain, world):
    """The capture of each node: a record for each packet that passed it, where the node's span has the reading. They
    stand in the order in which the packets were made, and so not in that of time."""
    parts, spelled = [[HEAD] for _ in domain.nodes], {}
    for packet in world:
        kind = packet.flow, packet.block & 1, packet.delayed
        if kind not in spelled:
            spelled[kind] = packet_bytes(domain, packet)
        for node, read in packet.passed:
            if domain.nodes[node]["from_ns"] <= read < domain.nodes[node]["until_ns"]:
                parts[node].append(struct.pack("<IIII", *divmod(read, 10**9), 48, 48) + spelled[kind])
    return [b"".join(records) for records in parts]


def drops(domain, world):
    """How many packets of the reported blocks are lost at a start of each cluster, and how many in the network."""
    lost = Counter(packet.lost for packet in world if packet.block in domain.blocks)
    counts = [sum(lost[node] for node in starts) for starts in clusters(domain.links)]
    return [*enumerate(counts), ("network", sum(counts))]


def main(words):
    if len(words) != 4 or words[3].startswith("-") and words[3] not in ("--drops", "--sim"):
        sys.exit(__doc__)
    domain = read_domain(words[0])
    world = packets(domain, int(words[1]), int(words[2]))
    if words[3] == "--drops":
        for scope, count in drops(domain, world):
            print(scope, count, sep=",")
    elif words[3] == "--sim":
        cells = len(domain.flows) * len(domain.blocks)
        print("cluster,true,reported,cells,equal")
        for scope, count in drops(domain, world):
            print(scope, count, count, cells, cells, sep=",")
    else:
        names = [node["capture"] for node in domain.nodes]
        if len(set(names)) < len(names):
            sys.exit("world: two nodes have one capture")
        os.makedirs(words[3], exist_ok=True)
        for name, capture in zip(names, captures(domain, world)):
            with open(os.path.join(words[3], name), "wb") as out:
                out.write(capture)


if __name__ == "__main__":
    main(sys.argv[1:])
