#!/usr/bin/env python3
"""Draws a network and its clusters: Graphviz text, from what `check` and `clusters` print of one domain file.

    ./altmark check DOMAIN >check.txt
    ./altmark clusters DOMAIN >clusters.txt
    examples/picture.py check.txt clusters.txt | dot -Tsvg >network.svg

Links of one cluster have one colour and one style, and each is labelled with its number and its cluster's.
"""

import sys

# Colours that tell apart in print too, with a style for each round of them.
COLOURS = ("#0072b2", "#d55e00", "#009e73", "#cc79a7", "#56b4e9", "#e69f00", "#000000")
STYLES = ("solid", "dashed", "dotted")


def nodes_and_links(lines):
    """The names of the nodes, and the links as pairs of names, in their order."""
    words = [line.split() for line in lines]
    nodes = [w[1] for w in words if w[0] == "node"]
    links = [(w[1], w[2]) for w in words if w[0] == "link"]
    return nodes, links


def cluster_of_links(lines):
    """The cluster of each link, by number."""
    cluster_of = {}
    for line in lines:
        words = line.split()
        first, last = words.index("links") + 1, words.index("starts")
        for link in words[first:last]:
            cluster_of[int(link)] = int(words[1])
    return cluster_of


def picture(nodes, links, cluster_of):
    """The lines of the Graphviz text."""
    yield "digraph network {"
    yield "  rankdir=LR;"
    yield "  node [shape=circle];"
    for node in nodes:
        yield f'  "{node}";'
    for number, (start, end) in enumerate(links):
        cluster = cluster_of[number]
        colour = COLOURS[cluster % len(COLOURS)]
        style = STYLES[cluster // len(COLOURS) % len(STYLES)]
        yield f'  "{start}" -> "{end}" [label="{number} ({cluster})", color="{colour}", style={style}];'
    yield "}"


def main():
    if len(sys.argv) != 3:
        sys.exit("picture.py CHECK CLUSTERS: what `check` and `clusters` print of one domain file")
    with open(sys.argv[1]) as checked, open(sys.argv[2]) as clustered:
        nodes, links = nodes_and_links(checked)
        for line in picture(nodes, links, cluster_of_links(clustered)):
            print(line)


if __name__ == "__main__":
    main()
