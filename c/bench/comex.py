#!/usr/bin/env python3
"""ComEx over GASNet beside ComEx's own port over MPI two-sided, in turn in each round: calls from one process to another.

    c/bench/comex.py [ROUNDS]

c/comex/with-ga comes first: it builds both libraries. MPI goes over TCP, as GASNet goes over UDP, and over the host's shared
memory. It prints a table in Markdown of medians over the rounds, 7 where no number is given: the times of the first in
microseconds, and the medians of each round's ratio to the two others.
"""
import os
import re
import subprocess
import sys
from pathlib import Path
from statistics import median

C = Path(__file__).resolve().parent.parent
SOURCE = C / "out" / "ga" / "source"
WAYS = {
    "gasnet": ([C / "out/libcomex.a", C / "out/libgasnet.a"], []),
    "TCP": ([SOURCE / "build/comex/.libs/libcomex.a"], ["--mca", "pml", "ob1", "--mca", "btl", "tcp,self"]),
    "shared memory": ([SOURCE / "build/comex/.libs/libcomex.a"], ["--mca", "pml", "ob1", "--mca", "btl", "vader,self"]),
}
SECONDS = 120


def libraries():
    text = (C / "out/gasnet.pc").read_text()
    return re.search(r"^Libs: \S* -lgasnet(.*)$", text, re.MULTILINE).group(1).split()


def build(way):
    program = C / "out/bench" / f"comex-{way.split()[0]}"
    program.parent.mkdir(exist_ok=True)
    words = ["mpicc", "-O2", "-Wall", "-Wextra", f"-I{SOURCE}/comex/src-common", C / "bench/comex.c", *WAYS[way][0], *libraries(), "-lm", "-o", program]
    subprocess.run([str(word) for word in words], check=True)
    return program


def measure(way, program):
    """The times of a run, by call and bytes."""
    variables = dict(os.environ, OMPI_ALLOW_RUN_AS_ROOT="1", OMPI_ALLOW_RUN_AS_ROOT_CONFIRM="1")
    words = ["mpirun", "--oversubscribe", "-n", "2", *WAYS[way][1], str(program)]
    text = subprocess.run(words, env=variables, check=True, timeout=SECONDS, stdout=subprocess.PIPE, text=True).stdout
    return {(name, int(size)): float(time) for name, size, time in re.findall(r"^(\S+) (\d+) ([\d.]+) us$", text, re.MULTILINE)}


def main():
    rounds = int(sys.argv[1]) if len(sys.argv) > 1 else 7
    programs = {way: build(way) for way in WAYS}
    runs = [{way: measure(way, program) for way, program in programs.items()} for _ in range(rounds)]
    others = [way for way in WAYS if way != "gasnet"]
    print("| Call | Bytes | us | " + " | ".join(f"ratio to MPI over {way}" for way in others) + " |\n|---|---|---|" + "---|" * len(others))
    for name in dict.fromkeys(name for name, _ in runs[0]["gasnet"]):
        for size in (size for of, size in runs[0]["gasnet"] if of == name):
            own = [run["gasnet"][name, size] for run in runs]
            ratios = [median(run["gasnet"][name, size] / run[way][name, size] for run in runs) for way in others]
            print(f"| {name} | {size:,} | {median(own):.1f} | " + " | ".join(f"{ratio:.2f}" for ratio in ratios) + " |")


main()
