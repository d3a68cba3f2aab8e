#!/usr/bin/env python3
"""Makes pairs of captures and a domain file, holds what a program prints of them against what is right, and measures it.

    measure.py PROGRAM FOLDER NETWORK [PAIR..]

FOLDER has the built programs `captures`, `spawn` and `tight`, and gets a folder for each pair, of which the big files are removed
once it is measured. NETWORK is the script that writes domain files, and `domain` names the one beside the pairs; `flows`
are two domain files, of 1,024 flows and of one. A pair is measured only where every table is right, the domain file where its
summary is, and the flows where what `strip` writes is. All output goes to /dev/null while it is
measured. The files were just written and read, so they come from memory. Runs take turns, and the least time of each counts,
since whatever else the machine does can only add to it. The status is 0 where everything that was printed is right.
"""
import os
import platform
import shutil
import struct
import subprocess
import sys
from dataclasses import dataclass, field

MOST_BYTES = 8_000_000
# Two runs of one program differ by some pages in what the system counts.
SAME_BYTES = 500_000


@dataclass
class Pair:
    name: str
    what: str
    words: list  # of captures.c
    rounds: int
    most_to_tight: float  # how many times the time of tight C `link` should take at most
    shown: bool = True  # whether the lines of `show` are compared


PAIRS = [
    Pair("short", "1,000,000 records, 64 bytes captured of each", ["-n", "1000000", "-s", "64", "-t"], 11, 1.15),
    Pair("tenfold", "10,000,000 records, 64 bytes captured of each", ["-n", "10000000", "-s", "64"], 3, 1.15, shown=False),
    Pair("whole", "1,000,000 records of 1,500 bytes", ["-n", "1000000", "-l", "1500", "-g", "1500", "-s", "1500", "-t"], 7, 1.0),
    Pair(
        "ethernet",
        "100,000 records, 78 bytes captured of each: Ethernet, big-endian, microseconds",
        ["-n", "100000", "-s", "78", "-e", "-b", "-u", "-t"],
        21,
        1.15,
    ),
]

# The domain of as many nodes, links and flows as there may be, and how many nanoseconds `check` of it should take at most.
DOMAIN = "domain"
MOST = ["128", "1024", "1024"]
DOMAIN_ROUNDS = 41
DOMAIN_TIME = 1_000_000_000

# The flows that marks are looked up in: so many, or the last of them alone; and how many times the time of one these should take at most.
FLOWS = "flows"
MANY = 1024
FLOW_RECORDS = 300_000
FLOW_ROUNDS = 21
MOST_TO_ONE = 8.0


@dataclass
class Runs:
    """The runs of one program over the same files: the least time, in nanoseconds, and the greatest peak, in bytes."""

    took: int = 0
    peak: int = 0
    times: list = field(default_factory=list)

    def add(self, took, peak):
        self.times.append(took)
        self.took = min(self.times)
        self.peak = max(self.peak, peak)


class Bench:
    def __init__(self, program, folder):
        self.program, self.folder = program, folder
        self.spawn = os.path.join(folder, "spawn")
        self.tight = os.path.join(folder, "tight")
        self.cat = shutil.which("cat")
        self.tcpdump = find_tcpdump()

    def run(self, words, cwd, output=os.devnull):
        """Nanoseconds and peak bytes of one run."""
        done = subprocess.run([self.spawn, output, *words], cwd=cwd, stdin=subprocess.DEVNULL, capture_output=True, text=True)
        if done.returncode != 0:
            sys.exit(f"bench: can't run {words[0]}: {done.stderr.strip()}")
        took, peak, status = (int(word) for word in done.stdout.split())
        if status != 0:
            sys.exit(f"bench: {' '.join(words)} ended with status {status}: {done.stderr.strip()}")
        return took, peak


def find_tcpdump():
    """The path of a tcpdump that can count, or None."""
    path = shutil.which("tcpdump")
    if path:
        said = subprocess.run([path, "--help"], stdin=subprocess.DEVNULL, capture_output=True, text=True)
        if "--count" in said.stdout + said.stderr:
            return path
    return None


def filter_of(flow):
    """What tcpdump counts: IPv6 with a Hop-by-Hop header that begins with a mark of this flow."""
    return f"ip6[6] == 0 and ip6[42:2] == 0x1204 and (ip6[44:4] & 0xfffff000) == {flow << 12:#x}"


def read(*path):
    with open(os.path.join(*path)) as file:
        return file.read()


def same(one, other):
    """Whether two files have the same bytes."""
    return subprocess.run(["cmp", one, other]).returncode == 0


UP, DOWN = "up.pcap", "down.pcap"


class Measured:
    """A pair with its files, and the runs over them. Programs run in its folder, since a name has at most 255 bytes."""

    def __init__(self, bench, pair):
        self.bench, self.pair = bench, pair
        self.folder = os.path.join(bench.folder, pair.name)
        self.cat, self.link, self.tight, self.cat_up, self.show, self.tcpdump = (Runs() for _ in range(6))

    def make(self):
        os.makedirs(self.folder, exist_ok=True)
        words = [os.path.join(self.bench.folder, "captures"), *self.pair.words, self.folder]
        if subprocess.run(words).returncode != 0:
            sys.exit(f"bench: the captures of {self.pair.name} can't be made")
        self.words = read(self.folder, "words").split()
        self.flows = [int(flow) for flow in read(self.folder, "flows").split()]

    def remove(self):
        for name in (UP, DOWN, "up.txt"):
            path = os.path.join(self.folder, name)
            if os.path.exists(path):
                os.remove(path)

    def run(self, words, output=os.devnull):
        return self.bench.run(words, self.folder, output)

    def link_words(self, flow):
        return [self.bench.program, "link", *self.words, str(flow), UP, DOWN]

    def tight_words(self, flow):
        return [self.bench.tight, *self.words, str(flow), UP, DOWN]

    def show_words(self):
        return [self.bench.program, "show", UP]

    def table(self, flow):
        return os.path.join(self.folder, f"table-{flow}")

    def is_right(self):
        """Whether the program and tight.c print what captures.c counted, and tcpdump counts as many packets."""
        printed = os.path.join(self.folder, "printed")
        for flow in self.flows:
            for whose, words in (("link", self.link_words(flow)), ("tight.c", self.tight_words(flow))):
                self.run(words, printed)
                if not same(printed, self.table(flow)):
                    print(f"  table of flow {flow} by {whose}: wrong")
                    return False
        blocks = len(read(self.table(self.flows[0])).splitlines()) - 1
        print(f"  tables: right ({len(self.flows)} flows, {blocks} blocks)")
        if self.pair.shown:
            self.run(self.show_words(), printed)
            if not same(printed, os.path.join(self.folder, "up.txt")):
                print("  lines of show: wrong")
                return False
            print("  lines of show: right")
        if self.bench.tcpdump:
            got = sum(self.count(capture, printed) for capture in (UP, DOWN))
            rows = [row.split(",") for row in read(self.table(self.flows[0])).splitlines()[1:]]
            wanted = sum(int(row[1]) + int(row[2]) for row in rows)
            print(f"  tcpdump: counts {got:,} packets of the flow" + ("" if got == wanted else f", and not {wanted:,}"))
        os.remove(printed)
        return True

    def tcpdump_words(self, capture):
        return [self.bench.tcpdump, "--count", "-n", "-r", capture, filter_of(self.flows[0])]

    def count(self, capture, printed):
        self.run(self.tcpdump_words(capture), printed)
        return int(read(printed).split()[0])

    def measure(self):
        for _ in range(self.pair.rounds):
            self.cat.add(*self.run([self.bench.cat, UP, DOWN]))
            self.link.add(*self.run(self.link_words(self.flows[0])))
            self.tight.add(*self.run(self.tight_words(self.flows[0])))
            self.cat_up.add(*self.run([self.bench.cat, UP]))
            self.show.add(*self.run(self.show_words()))
            if self.bench.tcpdump:
                took, peak = zip(*(self.run(self.tcpdump_words(capture)) for capture in (UP, DOWN)))
                self.tcpdump.add(sum(took), max(peak))

    def times_cat(self):
        """How many times as long as `cat` of the same files `link`, `show` and `tcpdump` take."""
        return self.link.took / self.cat.took, self.show.took / self.cat_up.took, self.tcpdump.took / self.cat.took

    def tell(self):
        link, show, tcpdump = self.times_cat()
        print(f"  cat of both files:      {ms(self.cat)}")
        print(f"  link:                   {ms(self.link)}  {link:6.2f} times cat of both")
        tight, most = self.link.took / self.tight.took, self.pair.most_to_tight
        print(f"  tight C of both files:  {ms(self.tight)}")
        print(f"  link / tight C:         {tight:.2f} (target: at most {most:.2f}: {met(tight <= most)})")
        print(f"  cat of one file:        {ms(self.cat_up)}")
        print(f"  show of one file:       {ms(self.show)}  {show:6.2f} times cat of one")
        if self.bench.tcpdump:
            ratio = self.link.took / self.tcpdump.took
            print(f"  tcpdump of both files:  {ms(self.tcpdump)}  {tcpdump:6.2f} times cat of both")
            print(f"  link / tcpdump:         {ratio:.2f} (target: at most 1: {met(ratio <= 1)}; if possible at most 0.5: {met(ratio <= 0.5)})")
        print(f"  peak memory of link:    {mb(self.link)} (target: at most {MOST_BYTES // 10**6} MB: {met(self.link.peak <= MOST_BYTES)})")
        print(f"  peak memory of show:    {mb(self.show)}")

    def row(self, about):
        """The row of the table in README.md."""
        link, show, tcpdump = self.times_cat()
        times = [ms(self.cat), ms(self.link), ms(self.tight), ms(self.show)]
        ratios = [f"{self.link.took / self.tight.took:.2f}", f"{link:.1f}", f"{show:.1f}"]
        if self.bench.tcpdump:
            times.append(ms(self.tcpdump))
            ratios += [f"{tcpdump:.1f}", f"{self.link.took / self.tcpdump.took:.2f}"]
        else:
            times.append("-")
            ratios += ["-", "-"]
        cells = [*about, self.pair.name, *times, *ratios, mb(self.link), mb(self.show)]
        return "| " + " | ".join(cell.strip() for cell in cells) + " |"


class MeasuredDomain:
    """The greatest domain, with its file, and the runs over it."""

    def __init__(self, bench, network):
        self.bench, self.network = bench, os.path.abspath(network)
        self.folder = os.path.join(bench.folder, DOMAIN)
        self.cat, self.check = Runs(), Runs()

    def make(self):
        os.makedirs(self.folder, exist_ok=True)
        words = [sys.executable, self.network, "domain.toml", "domain.txt", *MOST]
        if subprocess.run(words, cwd=self.folder).returncode != 0:
            sys.exit("bench: the domain file can't be made")

    def check_words(self):
        return [self.bench.program, "check", "domain.toml"]

    def is_right(self):
        """Whether the program prints what the script worked out."""
        printed = os.path.join(self.folder, "printed")
        self.bench.run(self.check_words(), self.folder, printed)
        right = same(printed, os.path.join(self.folder, "domain.txt"))
        print(f"  summary: {'right' if right else 'wrong'}")
        return right

    def measure(self):
        for _ in range(DOMAIN_ROUNDS):
            self.cat.add(*self.bench.run([self.bench.cat, "domain.toml"], self.folder))
            self.check.add(*self.bench.run(self.check_words(), self.folder))

    def tell(self):
        size = os.path.getsize(os.path.join(self.folder, "domain.toml"))
        print(f"  cat of {size:,} bytes:  {ms(self.cat)}")
        print(f"  check:                  {ms(self.check)} (target: below {DOMAIN_TIME // 10**9} s: {met(self.check.took < DOMAIN_TIME)})")
        print(f"  peak memory of check:   {mb(self.check)}")

    def row(self, about):
        """The row of the domain's table in README.md."""
        cells = [*about, ms(self.cat), ms(self.check), mb(self.check)]
        return "| " + " | ".join(cell.strip() for cell in cells) + " |"


class MeasuredFlows:
    """A capture whose records have marks of the last of many flows, and the runs of `strip` over it, with all flows and with that one."""

    def __init__(self, bench):
        self.bench = bench
        self.folder = os.path.join(bench.folder, FLOWS)
        self.runs = {(flows, capture): Runs() for flows in ("many", "one") for capture in ("none", "marked")}

    def make(self):
        os.makedirs(self.folder, exist_ok=True)
        for name, flows in (("many", range(MANY)), ("one", [MANY - 1])):
            with open(os.path.join(self.folder, name + ".toml"), "w") as file:
                file.write(domain_of(flows))
        head = struct.pack("<IHHiIII", 0xA1B23C4D, 2, 4, 0, 0, 262144, 101)
        addresses = prefix_of(1, MANY - 1) + b"\0" * 7 + b"\1" + prefix_of(2, MANY - 1) + b"\0" * 7 + b"\1"
        mark = struct.pack(">BBBBI", 17, 0, 0x12, 4, id_of(MANY - 1) << 12)
        marked = struct.pack(">IHBB", 0x60000000, 24, 0, 64) + addresses + mark + b"\0" * 16
        plain = struct.pack(">IHBB", 0x60000000, 16, 17, 64) + addresses + b"\0" * 16
        for name, packet, records in (("none", b"", 0), ("marked", marked, FLOW_RECORDS), ("stripped", plain, FLOW_RECORDS)):
            with open(os.path.join(self.folder, name + ".pcap"), "wb") as file:
                file.write(head)
                for number in range(records):
                    file.write(struct.pack("<IIII", 1_700_000_000 + number // 1000, number % 1000, len(packet), len(packet)) + packet)

    def remove(self):
        for name in ("marked", "stripped", "printed"):
            path = os.path.join(self.folder, name + ".pcap")
            if os.path.exists(path):
                os.remove(path)

    def words(self, flows, capture):
        return [self.bench.program, "strip", flows + ".toml", capture + ".pcap"]

    def is_right(self):
        """Whether the marks come out with all flows and with one."""
        printed = os.path.join(self.folder, "printed.pcap")
        for flows in ("many", "one"):
            self.bench.run(self.words(flows, "marked"), self.folder, printed)
            if not same(printed, os.path.join(self.folder, "stripped.pcap")):
                print(f"  strip with {flows}: wrong")
                return False
        print("  strip: right")
        return True

    def measure(self):
        for _ in range(FLOW_ROUNDS):
            for names, runs in self.runs.items():
                runs.add(*self.bench.run(self.words(*names), self.folder))

    def took(self, flows):
        """Nanoseconds for the records alone."""
        return self.runs[flows, "marked"].took - self.runs[flows, "none"].took

    def tell(self):
        ratio = self.took("many") / self.took("one")
        print(f"  strip, {MANY:,} flows:  {self.took('many') / FLOW_RECORDS:7.1f} ns a record")
        print(f"  strip, one flow:        {self.took('one') / FLOW_RECORDS:7.1f} ns a record")
        print(f"  many / one:             {ratio:.2f} (target: at most {MOST_TO_ONE:.0f}: {met(ratio <= MOST_TO_ONE)})")

    def row(self, about):
        """The row of the flows' table in README.md."""
        times = [f"{self.took(flows) / FLOW_RECORDS:.1f} ns" for flows in ("many", "one")]
        return "| " + " | ".join([*about, *times, f"{self.took('many') / self.took('one'):.2f}"]) + " |"


def id_of(flow):
    return flow * 1021


def prefix_of(end, flow):
    """The first 64 bits of a flow's addresses at one end."""
    return struct.pack(">HHHH", 0x2001, 0xDB8, end, flow)


def domain_of(flows):
    """A domain file of these flows, from one node to another."""
    text = ["[timing]\nblock_ns = 10000000000\nskew_ns = 2000000\ndelay_min_ns = 1000000\ndelay_max_ns = 200000000\n"]
    text.append('[marking]\nplace = "hop-by-hop"\n')
    for flow in flows:
        ends = "".join(f'{key} = "2001:db8:{end}:{flow:x}::/64"\n' for end, key in ((1, "source"), (2, "destination")))
        text.append(f'[[flow]]\nname = "flow-{flow}"\nid = {id_of(flow)}\n{ends}')
    for name in "ab":
        text.append(f'[[node]]\nname = "{name}"\ncapture = "{name}.pcap"\nfrom_ns = 1700000000000000000\nuntil_ns = 1700000100000000000\n')
    text.append('[[link]]\nfrom = "a"\nto = "b"\n')
    return "\n".join(text)


def ms(runs):
    return f"{runs.took / 1e6:7.1f} ms"


def mb(runs):
    return f"{runs.peak / 1e6:.1f} MB"


def met(truth):
    return "met" if truth else "not met"


def about():
    """The date, the machine and the toolchain."""
    date = subprocess.run(["date", "+%Y-%m-%d"], capture_output=True, text=True).stdout.strip()
    memory = os.sysconf("SC_PAGE_SIZE") * os.sysconf("SC_PHYS_PAGES") / 2**30
    machine = f"{platform.machine()}, {os.cpu_count()} processors, {memory:.0f} GiB"
    toolchain = "-"
    if shutil.which("rt"):
        toolchain = subprocess.run(["rt", "version"], stdin=subprocess.DEVNULL, capture_output=True, text=True).stdout.strip()
    return date, machine, toolchain


def tell_memory(measured):
    """Whether ten times the records take the same memory."""
    peaks = {each.pair.name: each.link.peak for each in measured}
    if "short" in peaks and "tenfold" in peaks:
        more = peaks["tenfold"] - peaks["short"]
        print(f"peak memory of link for ten times the records: {more / 1e6:+.2f} MB (target: the same: {met(more <= SAME_BYTES)})")


def judge(each):
    """Makes the files, and measures what the program takes over them where all that it prints is right."""
    each.make()
    if not each.is_right():
        return False
    each.measure()
    each.tell()
    return True


def main(program, folder, network, *names):
    known = [*(pair.name for pair in PAIRS), DOMAIN, FLOWS]
    for name in names:
        if name not in known:
            sys.exit(f"bench: there is no '{name}'; there are: {' '.join(known)}")
    names = names or known
    bench = Bench(program, folder)
    if not bench.tcpdump and not set(names) <= {DOMAIN, FLOWS}:
        print("tcpdump: skipped, since none is installed that has --count")
    measured, wrong = [], 0
    for pair in PAIRS:
        if pair.name not in names:
            continue
        print(f"{pair.name}: {pair.what}", flush=True)
        each = Measured(bench, pair)
        try:
            if judge(each):
                measured.append(each)
            else:
                wrong += 1
        finally:
            each.remove()
        sys.stdout.flush()
    tell_memory(measured)
    if DOMAIN in names:
        print(f"{DOMAIN}: {MOST[0]} nodes, {int(MOST[1]):,} links, {int(MOST[2]):,} flows", flush=True)
        each = MeasuredDomain(bench, network)
        if judge(each):
            measured.append(each)
        else:
            wrong += 1
    if FLOWS in names:
        print(f"{FLOWS}: {FLOW_RECORDS:,} records of 64 bytes with marks of the last of {MANY:,} flows", flush=True)
        each = MeasuredFlows(bench)
        try:
            if judge(each):
                measured.append(each)
            else:
                wrong += 1
        finally:
            each.remove()
    if measured:
        print("rows for bench/README.md:")
        words = about()
        for each in measured:
            print(each.row(words))
    return 1 if wrong else 0


if __name__ == "__main__":
    sys.exit(main(*sys.argv[1:]))
