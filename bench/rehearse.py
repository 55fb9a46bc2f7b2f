"""Times Rehearse against the plain C program on the same scripts, in one run: rounds of both alternate, the table shows the medians.

Usage: rehearse.py REHEARSE PLAIN FOLDER. The scripts, always the same, and their answers are kept in FOLDER. The answers of both must be
the same; in the timed rounds they are thrown away, so that no file system is timed. A time is what the processor spends on the program.
"""
import filecmp
import os
import pathlib
import random
import resource
import statistics
import subprocess
import sys

MEGABYTES, ROUNDS = 10, 15
START = "start 6 2 3 2 1 2 2 3 5 7"


def call(draw):
    """A call on the area of START; many are refused."""
    lock, condition, park, process = draw.randint(1, 2), draw.randint(1, 3), draw.randint(0, 2), draw.randint(1, 6)
    return draw.choice([
        f"enter {lock}",
        f"exit {lock}",
        f"wait {lock} {condition} {draw.randint(1, 5)}",
        f"notify {condition}",
        f"broadcast {condition}",
        f"naked {condition}",
        f"requeue {park} 0 {process}",
        f"requeue 0 {park} {process}",
        f"setpriority {draw.randint(0, 7)}",
        "tick",
        f"abort {process}",
        f"setabortable {condition} {draw.randint(0, 1)}",
        f"reenter {lock} {condition}",
    ])


def noise(draw):
    """A line that is no call."""
    return draw.choice(["", "Tick", "tick 1", "entre 1", "enter  1", "exit 65536", "wait 1 1", "notify one", "# the radio sleeps"])


SCRIPTS = {
    "calls": call,
    "one call in twenty": lambda draw: call(draw) if draw.random() < 0.05 else noise(draw),
}


def write(path, line):
    """A script: START every thousand lines, and lines of this kind between."""
    draw = random.Random(1)
    with open(path, "w") as script:
        while script.tell() < MEGABYTES * 1_000_000:
            script.write("\n".join([START] + [line(draw) for _ in range(999)]) + "\n")


def perform(program, script, answers):
    """Plays the script; the seconds that it takes."""
    before = resource.getrusage(resource.RUSAGE_CHILDREN)
    with open(script, "rb") as given, open(answers, "wb") as taken:
        subprocess.run([program], stdin=given, stdout=taken, check=True)
    after = resource.getrusage(resource.RUSAGE_CHILDREN)
    return after.ru_utime + after.ru_stime - before.ru_utime - before.ru_stime


def compare(name, line, rehearse, plain, folder):
    script, answers, expected = folder / "script.txt", folder / "answers.txt", folder / "expected.txt"
    write(script, line)
    perform(rehearse, script, answers)
    perform(plain, script, expected)
    if not filecmp.cmp(answers, expected, shallow=False):
        sys.exit(f"{name}: {answers} and {expected} differ")
    times = [(perform(rehearse, script, os.devnull), perform(plain, script, os.devnull)) for _ in range(ROUNDS)]
    found, base = (script.stat().st_size / 1e6 / statistics.median(column) for column in zip(*times))
    print(f"{name:20} {found:13.1f} {base:10.1f} {found / base:7.2f}")


def main(rehearse, plain, folder):
    print(f"{'script':20} {'rehearse MB/s':>13} {'plain MB/s':>10} {'ratio':>7}")
    for name, line in SCRIPTS.items():
        compare(name, line, rehearse, plain, pathlib.Path(folder))


main(*sys.argv[1:])
