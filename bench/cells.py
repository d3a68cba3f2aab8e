"""Measures the commands where there are many cells: cells.py PROGRAM FOLDER [SET..]. See cells.sh."""
import os
import shutil
import subprocess
import sys

from points import is_right, times

NODES = 128


def figure(name, nanoseconds, peak=None):
    memory = "" if peak is None else f", peak {peak / 1e6:.1f} MB"
    print(f"{name}: {nanoseconds / 1e6:.1f} ms{memory}")


def empty_captures(folder, into):
    """The same domain over captures without records: what is left is the reading of the domain, and the printing."""
    os.makedirs(into, exist_ok=True)
    shutil.copy(f"{folder}/two.toml", into)
    for name in "uv":
        with open(f"{folder}/{name}.pcap", "rb") as source, open(f"{into}/{name}.pcap", "wb") as out:
            out.write(source.read(24))


def two(program, tight, folder):
    """One flow and 32,768 blocks between two nodes; 65,536 packets of 64 bytes."""
    into, empty = f"{folder}/cells-two", f"{folder}/cells-empty"
    subprocess.run([f"{folder}/points", "-n", "65536", "-b", "32768", "-x", "0", into], check=True)
    empty_captures(into, empty)
    well = is_right(folder, into, program, ["meter", "two.toml", "a"], f"{into}/meter_a.csv")
    well &= is_right(folder, into, program, ["meter", "two.toml", "b"], f"{into}/meter_b.csv")
    well &= is_right(folder, into, program, ["audit", "two.toml"], f"{into}/audit.csv")
    reports = ["meter_a.csv", "meter_b.csv"]
    for order in reports, reports[::-1]:
        well &= is_right(folder, into, program, ["loss", "two.toml", *order], f"{into}/audit.csv")
    runs = {
        "meter": [program, "meter", "two.toml", "a"],
        "tight meter": [tight, "meter", "two.toml", "a"],
        "audit": [program, "audit", "two.toml"],
        "tight audit": [tight, "audit", "two.toml"],
        "loss": [program, "loss", "two.toml", *reports],
    }
    least, peak = times(folder, into, 41, runs)
    for name in runs:
        figure(f"two, {name}", least[name], peak[name])
    runs = {
        "check": [program, "check", "two.toml"],
        "meter": [program, "meter", "two.toml", "a"],
        "audit": [program, "audit", "two.toml"],
    }
    bare, _ = times(folder, empty, 41, runs)
    figure("two, check", bare["check"])
    figure("two, a report of 32,768 rows is printed in", bare["meter"] - bare["check"])
    figure("two, a report of 32,768 rows is read in", (least["loss"] - bare["audit"]) / 2)
    shutil.rmtree(into)
    shutil.rmtree(empty)
    return well


def net(program, tight, folder):
    """128 nodes, 1,024 links, 1,024 flows, 32 blocks; 68 scopes, so 2,228,224 rows. one.toml has one of the blocks."""
    into = f"{folder}/cells-net"
    subprocess.run([f"{folder}/mesh", into], check=True)
    reports = [f"p{node}.csv" for node in range(NODES)]
    captures = [f"p{node}.pcap" for node in range(NODES)]
    well = True
    for node in 0, 66, 96, 127:
        well &= is_right(folder, into, program, ["meter", "net.toml", f"p{node}"], f"{into}/p{node}.csv")
    well &= is_right(folder, into, program, ["audit", "net.toml"], f"{into}/table.csv")
    for order in reports, reports[::-1]:
        well &= is_right(folder, into, program, ["loss", "net.toml", *order], f"{into}/table.csv")
    cat = shutil.which("cat")
    runs = {
        "cat of the table": [cat, "table.csv"],
        "cat of the captures": [cat, *captures],
        "cat of the reports": [cat, *reports],
        "check": [program, "check", "net.toml"],
        "meter": [program, "meter", "net.toml", "p0"],
        "audit": [program, "audit", "net.toml"],
        "audit of one block": [program, "audit", "one.toml"],
        "tight audit": [tight, "audit", "net.toml"],
        "tight audit of one block": [tight, "audit", "one.toml"],
        "loss": [program, "loss", "net.toml", *reports],
    }
    least, peak = times(folder, into, 7, runs)
    for name in runs:
        figure(f"net, {name}", least[name], peak[name])
    table = least["audit"] - least["audit of one block"]
    print(f"net, audit less the captures, to cat of the table: {table / least['cat of the table']:.2f}")
    printed = least["tight audit"] - least["tight audit of one block"]
    print(f"net, audit less the captures, to C, which prints by fprintf: {table / printed:.2f}")
    shutil.rmtree(into)
    return well


def main(program, folder, *names):
    program, folder = os.path.abspath(program), os.path.abspath(folder)
    sets = {"two": two, "net": net}
    well = True
    for name in names or sets:
        well &= sets[name](program, f"{folder}/yardstick", folder)
    return 0 if well else 1


if __name__ == "__main__":
    sys.exit(main(*sys.argv[1:]))
