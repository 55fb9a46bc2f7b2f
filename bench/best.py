"""Runs the bench at several places and prints one table, with the best time of each kernel in each row.

Usage: best.py PROGRAM... [SIZE]...

The programs are the same but for the place of their code within a cache line. A loop of a few instructions takes up to twice as long where
it lies across the end of a line, in either kernel, and where it lies is an accident of linking.
"""
import re
import subprocess
import sys

ROW = re.compile(r"(.{39} +\d+) +([\d.]+) +([\d.]+) +[\d.]+$")


def main():
    programs = [word for word in sys.argv[1:] if not word.isdigit()]
    sizes = [word for word in sys.argv[1:] if word.isdigit()]
    best = {}
    for program in programs:
        head, *lines = subprocess.run([program, *sizes], check=True, stdout=subprocess.PIPE, text=True).stdout.splitlines()
        for line in lines:
            row, *times = ROW.match(line).groups()
            best[row] = [min(pair) for pair in zip(map(float, times), best.get(row, [1e12, 1e12]))]
    print(head)
    for row, (library, plain) in best.items():
        print(f"{row} {library:10.1f} {plain:10.1f} {library / plain:7.2f}")


main()
