#!/usr/bin/env python3
"""Writes traffic over the network of twelve/twelve.toml, with drops that are known: a capture of each of its twelve
points, and what `audit` prints of them.

    traffic.py [FOLDER]     writes p1.pcap to p12.pcap and twelve.audit into FOLDER, and into examples/twelve/ if left out
    traffic.py --drops      prints the rows of the loss table that show a loss: scope,flow,block,lost
    traffic.py --sums       prints what the rows of the network add up to: flow,in,out,lost

What is written is always the same. In each block each flow has as many packets as it has ways through the network, and
packet k takes way k. Rows and sums are worked out from the list of drops and the clusters alone. The table is worked
out from the ways of the packets, by the rules of docs/formats.md. The captures aren't read, and the program plays no
part in it. The reported blocks, flows, nodes with their spans, and links are those of twelve/twelve.check, and the
clusters those of twelve/twelve.clusters.
"""
import ipaddress
import os
import struct
import sys
from collections import Counter, namedtuple

# The numbers of time of twelve.toml, in nanoseconds.
BLOCK, SKEW, DELAY_MIN, DELAY_MAX = 10_000_000_000, 2_000_000, 1_000_000, 200_000_000
MILLISECOND = 1_000_000

# The ways of each flow's packets through the network.
WAYS = {
    "voice": [
        "p1 p3 p6 p8 p11",
        "p1 p4 p7 p10",
        "p2 p4 p6 p9 p12",
        "p2 p5 p7 p10",
        "p1 p4 p6 p9 p11",
        "p1 p3 p6 p9 p12",
    ],
    "video": ["p2 p5 p7 p10", "p2 p4 p7 p10", "p1 p4 p6 p8 p11", "p1 p3 p6 p9 p11", "p2 p4 p6 p8 p11"],
    "web": ["p1 p3 p6 p8 p11", "p1 p4 p6 p9 p12", "p2 p4 p6 p9 p11", "p1 p4 p7 p10"],
}

# When the packets enter, by the clock of the node where they do: the first so long after its block begins, each other
# so long after the one before. The last packet of voice enters 2 milliseconds before its block ends, and passes the
# other points when the next block has begun.
ENTERS = {
    "voice": (2_000_000, 1_999_200_000),
    "video": (500_000_000, 2_200_000_000),
    "web": (1_000_000_000, 2_500_000_000),
}

# The drops: flow, block, which of the flow's packets of that block, and the link on which it is lost. The first and the
# last are in blocks that aren't reported.
DROPS = [
    ("voice", 170000000, 5, "p4 p6"),
    ("voice", 170000003, 1, "p1 p3"),
    ("voice", 170000007, 2, "p1 p4"),
    ("voice", 170000007, 4, "p2 p5"),
    ("video", 170000009, 1, "p7 p10"),
    ("video", 170000009, 3, "p4 p6"),
    ("voice", 170000013, 2, "p7 p10"),
    ("voice", 170000014, 2, "p7 p10"),
    ("voice", 170000014, 4, "p7 p10"),
    ("video", 170000014, 1, "p7 p10"),
    ("video", 170000014, 2, "p7 p10"),
    ("web", 170000014, 4, "p7 p10"),
    ("voice", 170000015, 4, "p7 p10"),
    ("video", 170000015, 2, "p7 p10"),
    ("video", 170000016, 1, "p7 p10"),
    ("web", 170000021, 2, "p6 p9"),
    ("web", 170000021, 3, "p9 p11"),
    ("voice", 170000027, 6, "p9 p12"),
    ("video", 170000030, 5, "p8 p11"),
    ("voice", 170000031, 1, "p1 p3"),
]

# How long a packet takes over a link at least, in milliseconds. Up to 0.4 come to it. In some blocks a queue stands in
# front of one of the links, and packets wait.
TAKES = {
    "p1 p3": 4, "p1 p4": 6, "p2 p4": 5, "p2 p5": 9, "p3 p6": 3, "p4 p6": 7, "p4 p7": 5,
    "p5 p7": 2, "p6 p8": 8, "p6 p9": 4, "p7 p10": 12, "p8 p11": 3, "p9 p11": 6, "p9 p12": 2,
}  # fmt: skip
QUEUE, QUEUE_BLOCKS, QUEUE_TAKES = "p7 p10", range(170000012, 170000019), 60

# By how much each node's clock is ahead of true time, in microseconds: by at most half of the skew, to either side.
AHEAD = {
    "p1": 400, "p2": -700, "p3": 250, "p4": -350, "p5": 1000, "p6": -1000,
    "p7": 600, "p8": -150, "p9": 800, "p10": -450, "p11": 50, "p12": -900,
}  # fmt: skip

# A little-endian capture of nanoseconds and of raw IP.
HEAD = struct.pack("<IHHIIII", 0xA1B23C4D, 2, 4, 0, 0, 262144, 101)

# The domain: the reported blocks, flows as name to number and prefixes, nodes as name to span, links as texts ("p1 p3").
Domain = namedtuple("Domain", "blocks flows nodes links")

# A cluster, or the whole network: its name in the table, its links, and the nodes where packets enter and leave it.
Scope = namedtuple("Scope", "name links starts ends")

# A packet: its flow and block, whether it has the delay bit, and the nodes that it passed, each with its reading there.
Packet = namedtuple("Packet", "flow block delayed passed")


def read_domain(lines):
    """What `check` prints of a domain."""
    blocks, flows, nodes, links = range(0), {}, {}, []
    for kind, *words in map(str.split, lines):
        if kind == "blocks":
            blocks = range(int(words[0]), int(words[1]) + 1)
        elif kind == "guard":
            assert list(map(int, words)) == [SKEW + DELAY_MAX - DELAY_MIN, BLOCK // 2]
        elif kind == "flow":
            flows[words[0]] = (int(words[1]), *words[2:])
        elif kind == "node":
            nodes[words[0]] = range(int(words[2]), int(words[3]))
        elif kind == "link":
            links.append(" ".join(words))
    return Domain(blocks, flows, nodes, links)


def read_scopes(lines, domain):
    """The clusters that `clusters` prints, and the network, in the order of the table."""
    for line in lines:
        words = line.split()
        starts, ends = words.index("starts"), words.index("ends")
        links = [domain.links[int(number)] for number in words[3:starts]]
        yield Scope(words[1], links, words[starts + 1 : ends], words[ends + 1 :])
    reached = {link.split()[1] for link in domain.links}
    left = {link.split()[0] for link in domain.links}
    entries = [node for node in domain.nodes if node not in reached]
    yield Scope("network", domain.links, entries, [node for node in domain.nodes if node not in left])


def hops(way):
    """The links of a way."""
    nodes = way.split()
    return [f"{start} {end}" for start, end in zip(nodes, nodes[1:])]


def journey(way, block, entered, lost, spread):
    """The nodes that a packet passes, each with its reading there. It enters at this reading and is lost on this link,
    if any. The spread is what makes one packet a little slower than another."""
    first, *_ = way.split()
    marked = time = entered - 1000 * AHEAD[first]
    yield first, entered
    for link in hops(way):
        if link == lost:
            return
        queued = QUEUE_TAKES if link == QUEUE and block in QUEUE_BLOCKS else 0
        spread = spread * 7919 % 400_009
        time += (TAKES[link] + queued) * MILLISECOND + spread
        assert DELAY_MIN <= time - marked <= DELAY_MAX
        node = link.split()[1]
        yield node, time + 1000 * AHEAD[node]


def packets(domain):
    """All packets: those of the blocks in which the captures have a reading, and of the block before, of which some
    arrive after the captures began."""
    lost = {(flow, block, number): link for flow, block, number, link in DROPS}
    begin = min(span.start for span in domain.nodes.values())
    end = max(span.stop for span in domain.nodes.values())
    assert all(2 * 1000 * abs(ahead) <= SKEW for ahead in AHEAD.values())
    newest = {}
    for block in range(begin // BLOCK - 1, (end - 1) // BLOCK + 1):
        for flow, ways in WAYS.items():
            first, step = ENTERS[flow]
            for number, way in enumerate(ways, 1):
                assert set(hops(way)) <= set(domain.links)
                link = lost.pop((flow, block, number), None)
                assert link is None or link in hops(way)
                # The first packet of a flow and block at the node where it enters has the delay bit.
                entry = flow, way.split()[0]
                delayed = block > newest.get(entry, -1)
                newest[entry] = block
                entered = block * BLOCK + first + (number - 1) * step
                spread = block % 1000 * 1009 + number * 131 + domain.flows[flow][0] % 97
                yield Packet(flow, block, delayed, dict(journey(way, block, entered, link, spread)))
    assert not lost


def packet_bytes(packet, domain):
    """The packet on the wire: the IPv6 header, and a Hop-by-Hop header with the mark."""
    number, *prefixes = domain.flows[packet.flow]
    source, destination = (ipaddress.IPv6Network(prefix)[1].packed for prefix in prefixes)
    fixed = struct.pack(">IHBB", 0x60000000, 8, 0, 64) + source + destination
    # The flow's number has 20 bits. The loss bit, which is the colour of the block, and the delay bit follow it.
    mark = number << 12 | (packet.block & 1) << 11 | packet.delayed << 10
    return fixed + bytes.fromhex("3b001204") + struct.pack(">I", mark)


def capture(node, domain, sent):
    """The capture of a node: each packet that passed it, by the reading, where the node's span has that."""
    seen = [(p.passed[node], packet_bytes(p, domain)) for p in sent if p.passed.get(node, -1) in domain.nodes[node]]
    parts = [HEAD]
    for reading, bytes_ in sorted(seen):
        parts.append(struct.pack("<IIII", *divmod(reading, 1_000_000_000), len(bytes_), len(bytes_)) + bytes_)
    return b"".join(parts)


def row(scope, sent):
    """What a row says of these packets: how many entered and left the scope and were lost in it, and their delay."""
    entered = [p.passed[node] for p in sent for node in scope.starts if node in p.passed]
    left = [p.passed[node] for p in sent for node in scope.ends if node in p.passed]
    delay = sum(left) - sum(entered) if len(entered) == len(left) else "-"
    return len(entered), len(left), len(entered) - len(left), delay


def table(domain, scopes, sent):
    """The lines of the loss table."""
    yield "scope,flow,block,in,out,lost,delay,din,dout,ddelay"
    of = {(flow, block): [] for flow in domain.flows for block in domain.blocks}
    for p in sent:
        if p.block in domain.blocks:
            of[p.flow, p.block].append(p)
    for scope in scopes:
        for (flow, block), those in of.items():
            into, out, lost, delay = row(scope, those)
            din, dout, _, ddelay = row(scope, [p for p in those if p.delayed])
            yield ",".join(map(str, [scope.name, flow, block, into, out, lost, delay, din, dout, ddelay]))


def drop_rows(domain, scopes):
    """The rows that show a loss, in the order of the table."""
    losses = Counter((flow, block, link) for flow, block, _, link in DROPS if block in domain.blocks)
    for scope in scopes:
        for flow in domain.flows:
            for block in domain.blocks:
                lost = sum(losses[flow, block, link] for link in scope.links)
                if lost:
                    yield f"{scope.name},{flow},{block},{lost}"


def drop_sums(domain):
    """What the network's rows of each flow add up to."""
    for flow in domain.flows:
        entered = len(WAYS[flow]) * len(domain.blocks)
        lost = sum(name == flow and block in domain.blocks for name, block, *_ in DROPS)
        yield f"{flow},{entered},{entered - lost},{lost}"


def main(words):
    twelve = os.path.join(os.path.dirname(os.path.dirname(os.path.realpath(__file__))), "twelve")
    with open(os.path.join(twelve, "twelve.check")) as checked:
        domain = read_domain(checked)
    with open(os.path.join(twelve, "twelve.clusters")) as clustered:
        scopes = list(read_scopes(clustered, domain))
    if words == ["--drops"]:
        print(*drop_rows(domain, scopes), sep="\n")
    elif words == ["--sums"]:
        print(*drop_sums(domain), sep="\n")
    elif len(words) > 1 or words and words[0].startswith("-"):
        sys.exit(__doc__)
    else:
        folder = words[0] if words else twelve
        os.makedirs(folder, exist_ok=True)
        sent = list(packets(domain))
        for node in domain.nodes:
            with open(os.path.join(folder, f"{node}.pcap"), "wb") as out:
                out.write(capture(node, domain, sent))
        with open(os.path.join(folder, "twelve.audit"), "w", newline="\n") as out:
            out.writelines(line + "\n" for line in table(domain, scopes, sent))


if __name__ == "__main__":
    main(sys.argv[1:])
