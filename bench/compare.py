#!/usr/bin/env python3
"""Runs programs of this folder in turns, and prints the least time of each thing that they name, in microseconds.

    compare.py ROUNDS PROVED [PLAIN]

The programs print lines of a name and nanoseconds. The name may end in a number, the length. A ratio is that of PROVED to PLAIN, and a
growth that of twice the length to the length.
"""
import subprocess
import sys


def least(best, program):
    for line in subprocess.run([program], capture_output=True, text=True, check=True).stdout.splitlines():
        *name, took = line.split()
        name = " ".join(name)
        best[name] = min(best.get(name, float("inf")), int(took) / 1e3)


rounds, programs = int(sys.argv[1]), sys.argv[2:]
times = [{} for _ in programs]
for _ in range(rounds):
    for best, program in zip(times, programs):
        least(best, program)
for name, proved in times[0].items():
    row = f"{name}: {proved:.1f}"
    for best in times[1:]:
        if name in best:
            row += f", plain {best[name]:.1f}, ratio {proved / best[name]:.2f}"
    print(row)
for best, body in zip(times, ("proved", "plain")):
    for name, took in best.items():
        *first, last = name.split()
        double = " ".join([*first, str(2 * int(last))]) if last.isdigit() else ""
        if double in best:
            print(f"growth of {body} {name} to {double}: {best[double] / took:.2f}")
