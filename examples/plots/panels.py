#!/usr/bin/env python3
"""Draws a loss table: gnuplot text, from what `audit` prints of a domain.

    panels.py TABLE loss >loss.gp       the packets that were lost in each block
    panels.py TABLE delay >delay.gp     the mean delay of a packet in each block

There is a panel for each cluster and for the network, and a colour for each flow. plot.sh hands the text to gnuplot.
"""
import csv
import sys

COLUMNS = "scope,flow,block,in,out,lost,delay,din,dout,ddelay".split(",")

# Colours that tell apart in print too, with a dash for each round of them.
COLOURS = ("#0072b2", "#d55e00", "#009e73", "#cc79a7", "#56b4e9", "#e69f00", "#000000")

# The picture in pixels: how wide it is, how high a panel is, and what stands above and below the panels.
WIDTH, PANEL, GAP, ABOVE, BELOW = 900, 90, 14, 72, 64
LEFT, RIGHT = 80, 800

TITLES = {"loss": "Packets lost in each block", "delay": "Mean delay of a packet in each block"}
UNITS = {"loss": "lost [packets]", "delay": "delay [ms]"}


def read_table(name):
    """The rows of the table: the numbers of a row, by scope, flow and block, each in the order of the table."""
    table = {}
    try:
        with open(name, newline="") as file:
            rows = csv.reader(file)
            if next(rows) == COLUMNS:
                for scope, flow, block, _, out, lost, delay, *_ in rows:
                    table.setdefault(scope, {}).setdefault(flow, {})[int(block)] = (int(out), int(lost), delay)
    except OSError as error:
        sys.exit(f"panels.py: {error}")
    except (ValueError, StopIteration):
        table = {}
    if not table:
        sys.exit(f"panels.py: {name} is no loss table")
    return table


def mean_delays(cells):
    """The mean delay in milliseconds of each block that has one: where no packet is missing, and there was one."""
    return {block: int(delay) / out / 1_000_000 for block, (out, _, delay) in cells.items() if delay != "-" and out}


def levels(delays):
    """Lines of gnuplot data: a level as wide as its block, joined to that of the next block, and a gap where that is
    missing."""
    for block in sorted(delays):
        if block - 1 not in delays:
            yield ""
        yield f"{block - 0.5} {delays[block]:.4f}"
        yield f"{block + 0.5} {delays[block]:.4f}"


def bars(cells, place, flows):
    """Lines of gnuplot data: the losses that aren't 0, those of the flows of a block side by side."""
    for block, (_, lost, _) in sorted(cells.items()):
        if lost:
            yield f"{block - 0.4 + 0.8 * (place + 0.5) / flows:.4f} {lost} {0.8 / flows:.4f}"


def step(span, most, powers=range(20)):
    """The least of 1, 2 and 5 times these powers of ten that goes through the span in so many steps at most."""
    return next(s * 10.0**power for power in powers for s in (1, 2, 5) if span <= most * s * 10.0**power)


def heights(values, kind):
    """The words for gnuplot that set the heights of a panel: from 0, or the least value, to a little above the
    greatest."""
    least, greatest = min([0, *values]), max([0, *values])
    if kind == "loss" or least == greatest:
        greatest = max(1, greatest)
    tics = step(greatest - least, 5, range(20) if kind == "loss" else range(-6, 20))
    return f"set yrange [{least * 1.1:g}:{greatest * 1.15:g}]; set ytics {tics:g}"


def picture(table, kind):
    """The lines of the gnuplot text."""
    flows = list(dict.fromkeys(flow for scope in table.values() for flow in scope))
    blocks = sorted({block for scope in table.values() for cells in scope.values() for block in cells})
    losses = [lost for scope in table.values() for cells in scope.values() for _, lost, _ in cells.values()]
    height = ABOVE + BELOW + PANEL * len(table) + GAP * (len(table) - 1)
    yield f'set terminal svg name "{kind}" size {WIDTH},{height} font "sans-serif,13" background "white" noenhanced'
    yield f"set multiplot; set label 1 '{TITLES[kind]}' at screen 0.5,{(height - 20) / height} center font ',16'"
    yield f"set lmargin at screen {LEFT / WIDTH}; set rmargin at screen {RIGHT / WIDTH}"
    yield "set border 3; set tics nomirror out scale 0.5; set grid y linecolor '#dddddd' linetype 1"
    yield f"set xrange [{blocks[0] - 0.5}:{blocks[-1] + 0.5}]"
    every = int(step(len(blocks), 8))
    yield f"set xtics {-(-blocks[0] // every) * every},{every},{blocks[-1]} format ''"
    for flow in range(len(flows)):
        # Where lines lie on one another the first is the widest, so that it is seen on both sides of the others.
        colour, dash, width = COLOURS[flow % len(COLOURS)], flow // len(COLOURS) + 1, max(1.5, 5 - 1.5 * flow)
        yield f"set linetype {flow + 1} linecolor rgb '{colour}' dashtype {dash} linewidth {width}"
    yield f"set label 2 '{UNITS[kind]}' at screen 0.02,{(BELOW + height - ABOVE) / 2 / height} center rotate by 90"
    yield f"set key at screen 0.5,screen {(height - 36) / height} center top horizontal"
    yield "set samples 2; set style fill solid noborder"
    for number, (scope, of) in enumerate(table.items()):
        top = height - ABOVE - number * (PANEL + GAP)
        yield f"set tmargin at screen {top / height}; set bmargin at screen {(top - PANEL) / height}"
        name = scope if scope == "network" else f"cluster {scope}"
        yield f"set label 3 '{name}' at graph 1.01,0.5 left"
        delays = [mean_delays(cells) for cells in of.values()]
        yield heights(losses if kind == "loss" else [mean for means in delays for mean in means.values()], kind)
        drawn = ["0 linecolor '#888888' linewidth 1 notitle"]
        for place, flow in enumerate(flows):
            cells = of.get(flow, {})
            lines = list(levels(mean_delays(cells)) if kind == "delay" else bars(cells, place, len(flows)))
            style = "with lines" if kind == "delay" else "with boxes"
            if number == 0:
                drawn.append(f"keyentry {style} linetype {place + 1} title '{flow}'")
            if any(lines):
                yield f"$of{number}_{place} << END"
                yield from lines
                yield "END"
                drawn.append(f"$of{number}_{place} {style} linetype {place + 1} notitle")
        if number == len(table) - 1:
            yield "set format x '%.0f'; set xlabel 'number of the block'"
        yield "plot " + ", ".join(drawn)
        yield "unset label 1; unset label 2; unset key"
    yield "unset multiplot"


def main(words):
    if len(words) != 2 or words[1] not in TITLES:
        sys.exit(__doc__)
    for line in picture(read_table(words[0]), words[1]):
        print(line)


if __name__ == "__main__":
    main(sys.argv[1:])
