#!/usr/bin/env python3
"""Writes a domain file of any size, and what `altmark check` prints of it where it isn't refused.

    network.py TEXT PRINTED NODES LINKS FLOWS

TEXT gets the domain file, PRINTED what is printed. Nodes stand in layers of sixteen, and links lead from each layer to the
next. Captures begin and end at other times at each node, and cover 32 blocks together, so that 1,024 flows have as many
cells as there may be. The files are always the same. What is printed comes from the rules of docs/formats.md: addresses are
printed by Python's ipaddress, and blocks are tried one by one. The program plays no part in it.
"""
import ipaddress
import sys

BLOCK, SKEW, DELAY_MIN, DELAY_MAX = 10_000_000_000, 2_000_000, 1_000_000, 200_000_000
HALF = BLOCK // 2
START = 1_700_000_000_000_000_000
LAYER = 16


def links_of(nodes, count):
    """The first so many links: in each round one from every node to one of the next layer."""
    links = []
    for turn in range(LAYER):
        for node in range(nodes):
            other = (node // LAYER + 1) * LAYER + (node + turn) % LAYER
            if other < nodes:
                links.append((node, other))
    if len(links) < count:
        sys.exit(f"network: {nodes} nodes have no more than {len(links)} links")
    return links[:count]


def address(number):
    """An address whose groups are zero where the number's bits are."""
    groups = [(number + 1) * (place + 3) * 40503 % 65521 if number >> place & 1 else 0 for place in range(8)]
    return ipaddress.IPv6Address(b"".join(group.to_bytes(2, "big") for group in groups))


def prefix(number):
    """A prefix, as it is spelled here and as it is printed."""
    length = number * 37 % 129
    base = address(number)
    return f"{base.exploded.upper()}/{length}", str(ipaddress.IPv6Network((base, length), strict=False))


def span(node):
    """The readings that the node's capture has. The latest begins half a block before block 170000001 at a shift of 0."""
    return START + HALF - node * 1_000_003 % HALF, START + 32 * BLOCK + BLOCK + HALF + DELAY_MIN + node * 7_000_001 % HALF


def covers(block, shift, start, until):
    """Whether the capture has each reading of the block's window, which are numbers from 0 up."""
    return start <= max(0, block * BLOCK - HALF + shift) and (block + 1) * BLOCK + HALF + shift <= until


def network(nodes, links, flows):
    edges = links_of(nodes, links)
    reached = {end for _, end in edges}
    shifts = [DELAY_MIN if node in reached else 0 for node in range(nodes)]
    spans = [span(node) for node in range(nodes)]
    numbers = range(START // BLOCK - 100, START // BLOCK + 200)
    blocks = [n for n in numbers if all(covers(n, shift, *times) for shift, times in zip(shifts, spans))]

    text = [f"[timing]\nblock_ns = {BLOCK}\nskew_ns = {SKEW}\ndelay_min_ns = {DELAY_MIN}\ndelay_max_ns = {DELAY_MAX}\n"]
    text.append('[marking]\nplace = "hop-by-hop"\n')
    printed = [f"blocks {blocks[0]} {blocks[-1]}", f"guard {SKEW + DELAY_MAX - DELAY_MIN} {HALF}"]
    for flow in range(flows):
        (source, source_printed), (destination, destination_printed) = prefix(flow), prefix(flow + 5000)
        ends = f'source = "{source}"\ndestination = "{destination}"\n'
        text.append(f'[[flow]]\nname = "flow-{flow}"\nid = {flow * 1021}\n{ends}')
        printed.append(f"flow flow-{flow} {flow * 1021} {source_printed} {destination_printed}")
    for node, (start, until) in enumerate(spans):
        text.append(f'[[node]]\nname = "p{node}"\ncapture = "p{node}.pcap"\nfrom_ns = {start}\nuntil_ns = {until}\n')
        printed.append(f"node p{node} {shifts[node]} {start} {until}")
    for start, end in edges:
        text.append(f'[[link]]\nfrom = "p{start}"\nto = "p{end}"\n')
        printed.append(f"link p{start} p{end}")
    return "\n".join(text), "".join(line + "\n" for line in printed)


def main(text_name, printed_name, *counts):
    text, printed = network(*map(int, counts))
    with open(text_name, "w", newline="\n") as out:
        out.write(text)
    with open(printed_name, "w", newline="\n") as out:
        out.write(printed)


if __name__ == "__main__":
    if len(sys.argv) != 6:
        sys.exit(__doc__)
    main(*sys.argv[1:])
