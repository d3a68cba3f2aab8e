#!/usr/bin/env python3
"""Runs the program over each capture of two, cut at each of its lengths: `link` with it in both places beside the other,
whole, and `show`.

    cuts.py ALTMARK U V

Beside U and V, which are .pcap files, stands what `show` prints of them whole, as .txt. A capture that is cut behind its
file header or behind a record is a whole one. Each other cut is refused: the file ends in that record, or, for 0, in the
file header. A line on standard output for each of the first runs that went wrong; the counts of runs and of wrong ones go
to descriptor 3.
"""
import os
import subprocess
import sys
import tempfile
from concurrent.futures import ThreadPoolExecutor

HEAD, RECORD = 24, 64
SHOWN = 10


def wanted(length):
    """The status, and the number of the record that the file ends in if it is refused: 0 for the file header."""
    if length < HEAD:
        return 3, 0
    if (length - HEAD) % RECORD:
        return 3, (length - HEAD) // RECORD + 1
    return 0, None


def read(name):
    with open(name, "rb") as file:
        return file.read()


def first(lines, length):
    """What `show` prints of a capture of this length: the lines of its whole records."""
    return b"".join(lines[: max(0, length - HEAD) // RECORD])


def main(altmark, u, v):
    whole = {"u.pcap": read(u), "v.pcap": read(v)}
    shown = {"u.pcap": read(u[:-5] + ".txt"), "v.pcap": read(v[:-5] + ".txt")}
    jobs = []
    with tempfile.TemporaryDirectory() as folder:
        for name, bytes_ in whole.items():
            with open(os.path.join(folder, name), "wb") as out:
                out.write(bytes_)
            for length in range(len(bytes_) + 1):
                cut = f"cut-{length}-{name}"
                with open(os.path.join(folder, cut), "wb") as out:
                    out.write(bytes_[:length])
                other = "v.pcap" if name == "u.pcap" else "u.pcap"
                lines = first(shown[name].splitlines(keepends=True), length)
                jobs.append((cut, length, ["link", "10000000000", "0", "74565", cut, other], None))
                jobs.append((cut, length, ["link", "10000000000", "0", "74565", other, cut], None))
                jobs.append((cut, length, ["show", cut], lines))

        def judge(job):
            cut, length, words, lines = job
            done = subprocess.run([altmark, *words], cwd=folder, stdin=subprocess.DEVNULL, capture_output=True)
            status, number = wanted(length)
            line = f"altmark: {cut}: file ends in record {number}\n".encode() if status else b""
            right = done.returncode == status and done.stderr == line
            if lines is not None:
                right = right and done.stdout == lines
            else:
                right = right and (done.stdout == b"" if status else done.stdout.startswith(b"block,in,out,lost\n"))
            return None if right else f"failed: {' '.join(words)}: status {done.returncode}, {done.stderr!r}"

        with ThreadPoolExecutor(os.cpu_count() or 1) as pool:
            wrong = [text for text in pool.map(judge, jobs) if text]
    for text in wrong[:SHOWN]:
        print(text)
    if len(wrong) > SHOWN:
        print(f"failed: {len(wrong) - SHOWN} more of such cuts")
    sys.stdout.flush()
    os.write(3, f"{len(jobs)} {len(wrong)}\n".encode())


if __name__ == "__main__":
    main(*sys.argv[1:])
