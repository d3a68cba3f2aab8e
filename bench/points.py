"""Measures the commands over the captures of a domain's two points: points.py PROGRAM FOLDER [SET..]. See points.sh."""
import filecmp
import os
import shutil
import subprocess
import sys

# Sets of captures: what `points` is asked for, and the rounds.
SETS = {
    "short": (["-n", "1000000"], 9),
    "whole": (["-n", "300000", "-c", "1500"], 7),
    "flows": (["-n", "1000000", "-f", "100", "-b", "30"], 9),
    "tenfold": (["-n", "10000000"], 3),
}


def make(folder, words, into):
    os.makedirs(into, exist_ok=True)
    subprocess.run([f"{folder}/points", *words, into], check=True)


def spawn(folder, into, output, program, *words):
    """Runs a program once in a folder; the time in nanoseconds, the peak memory in bytes, the status."""
    ran = subprocess.run([f"{folder}/spawn", output, program, *words], cwd=into, capture_output=True, text=True, check=True)
    return [int(it) for it in ran.stdout.split()]


def is_right(folder, into, program, words, wanted):
    """Whether the program prints the bytes of a file, or of another program's run."""
    output = f"{folder}/printed"
    _, _, status = spawn(folder, into, output, program, *words)
    right = status == 0 and filecmp.cmp(output, wanted, shallow=False)
    if not right:
        print(f"bench: {' '.join(words)} isn't right")
    return right


def times(folder, into, rounds, runs):
    """The least time and the greatest peak of each run, in turn, all to /dev/null."""
    least, peak = {}, {}
    for _ in range(rounds):
        for name, words in runs.items():
            took, memory, status = spawn(folder, into, "/dev/null", *words)
            if status != 0:
                sys.exit(f"bench: {name} ended with status {status}")
            least[name] = min(took, least.get(name, took))
            peak[name] = max(memory, peak.get(name, 0))
    return least, peak


def told(name, least, peak, of, to):
    ratio = least[of] / least[to]
    print(f"{name}: {of} {least[of] / 1e6:.1f} ms, {to} {least[to] / 1e6:.1f} ms, ratio {ratio:.2f}, peak {peak[of] / 1e6:.1f} MB")


def main(program, folder, *names):
    program, folder = os.path.abspath(program), os.path.abspath(folder)
    tight, cat = f"{folder}/yardstick", shutil.which("cat")
    tcpdump = shutil.which("tcpdump")
    well = True
    for name in names or SETS:
        words, rounds = SETS[name]
        into, plain = f"{folder}/points-{name}", f"{folder}/plain-{name}"
        make(folder, words, into)
        well &= is_right(folder, into, program, ["meter", "two.toml", "a"], f"{into}/meter_a.csv")
        well &= is_right(folder, into, program, ["meter", "two.toml", "b"], f"{into}/meter_b.csv")
        well &= is_right(folder, into, program, ["audit", "two.toml"], f"{into}/audit.csv")
        runs = {
            "cat": [cat, "u.pcap"],
            "meter": [program, "meter", "two.toml", "a"],
            "tight meter": [tight, "meter", "two.toml", "a"],
            "audit": [program, "audit", "two.toml"],
            "tight audit": [tight, "audit", "two.toml"],
        }
        if tcpdump:
            runs["tcpdump"] = [tcpdump, "--count", "-r", "u.pcap", "ip6[40:4] = 0x3b001204"]
        least, peak = times(folder, into, rounds, runs)
        told(name, least, peak, "meter", "tight meter")
        told(name, least, peak, "audit", "tight audit")
        told(name, least, peak, "meter", "cat")
        if tcpdump:
            told(name, least, peak, "meter", "tcpdump")
        if name != "tenfold":
            make(folder, [*words, "-m"], plain)
            well &= is_right(folder, plain, program, ["mark", "two.toml", "u.pcap"], f"{into}/u.pcap")
            well &= is_right(folder, into, program, ["strip", "two.toml", "u.pcap"], f"{plain}/u.pcap")
            runs = {"mark": [program, "mark", "two.toml", "u.pcap"], "tight mark": [tight, "mark", "two.toml", "u.pcap"]}
            least, peak = times(folder, plain, rounds, runs)
            told(name, least, peak, "mark", "tight mark")
            runs = {"strip": [program, "strip", "two.toml", "u.pcap"], "tight strip": [tight, "strip", "two.toml", "u.pcap"]}
            least, peak = times(folder, into, rounds, runs)
            told(name, least, peak, "strip", "tight strip")
        shutil.rmtree(into)
        shutil.rmtree(plain, ignore_errors=True)
    return 0 if well else 1


if __name__ == "__main__":
    sys.exit(main(*sys.argv[1:]))
