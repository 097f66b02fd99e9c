#!/usr/bin/env python3
"""Counts the instructions that posting and the baseline take for the benchmark rounds.

Usage: bench/measure.py [--time-limit SECONDS] [POSTING]

Both programs run under callgrind, reading and printing included. A run that takes longer than the time limit (600 s if not
given) is stopped, and the table says "over". Before that, each round is run without callgrind and the two outputs are
compared; if they differ, the script stops with status 1.
"""

import argparse
import random
import re
import subprocess
import sys
import tempfile
from pathlib import Path

sys.dont_write_bytecode = True
from common import BASELINE, POSTING, build_baseline, posts_fields, sheet, staff_fields  # noqa: E402

SCHOOLS, SUBJECTS = 8, 10
LANES = [(school, subject) for school in range(1, SCHOOLS + 1) for subject in range(1, SUBJECTS + 1)]
TEACHERS = [25, 50, 100, 200]
CALLGRIND = ["valgrind", "--tool=callgrind", "--callgrind-out-file=/dev/null"]


def all_but(main):
    return [subject for subject in range(1, SUBJECTS + 1) if subject != main]


def worst(teachers):
    """80 lanes without a seat, and incumbents with every licence: every lane turns away every teacher."""
    lanes = [(school, subject, 0, []) for school, subject in LANES]
    staff = []
    for number in range(teachers):
        main = number % SUBJECTS + 1
        staff.append((number % SCHOOLS + 1, main, all_but(main), [], number, 1))
    return posts_fields(SCHOOLS, SUBJECTS, lanes), staff_fields(staff)


def crowded(teachers):
    """80 lanes with 0 to 2 seats, and teachers, half of them newcomers, with every licence who wish for every school."""
    rng = random.Random(2024)
    lanes = [(school, subject, rng.randint(0, 2), []) for school, subject in LANES]
    points = rng.sample(range(65536), 200)
    staff = []
    for number in range(teachers):
        main = rng.randint(1, SUBJECTS)
        home = rng.choice([0, rng.randint(1, SCHOOLS)])
        wish = rng.sample(range(1, SCHOOLS + 1), SCHOOLS)
        staff.append((home, main, all_but(main), wish, points[number], 1))
    return posts_fields(SCHOOLS, SUBJECTS, lanes), staff_fields(staff)


class Over(Exception):
    """A run that took too long."""


def run(command, folder, time_limit):
    try:
        done = subprocess.run([*command, "posts.txt", "staff.txt"], cwd=folder, capture_output=True, timeout=time_limit)
    except subprocess.TimeoutExpired:
        raise Over from None
    if done.returncode != 0:
        sys.exit(f"{command[-1]} ended with status {done.returncode}:\n{done.stderr.decode(errors='replace')}")
    return done


def instructions(program, folder, expected, time_limit):
    """The count of one run under callgrind, or None if it takes too long."""
    try:
        done = run([*CALLGRIND, program], folder, time_limit)
    except Over:
        return None
    if done.stdout != expected:
        sys.exit(f"{program} prints something else under callgrind")
    return int(re.search(rb"Collected\s*:\s*(\d+)", done.stderr).group(1))


def measure(name, teachers, posting, time_limit):
    """Instructions of posting and of the baseline for one round, and its raises."""
    make = {"worst": worst, "crowded": crowded}[name]
    with tempfile.TemporaryDirectory() as folder:
        for file, fields in zip(("posts.txt", "staff.txt"), make(teachers)):
            (Path(folder) / file).write_bytes(sheet(fields))
        expected = run([BASELINE], folder, time_limit).stdout
        raises = int(re.match(rb"raises=(\d+)\n", expected).group(1))
        if name == "worst" and raises != len(LANES) * teachers:
            sys.exit(f"worst with {teachers} teachers has {raises} raises")
        try:
            output = run([posting], folder, time_limit).stdout
        except Over:
            print(f"{name} with {teachers} teachers: posting is over the time limit even without callgrind, outputs not compared")
        else:
            if output != expected:
                sys.exit(f"{name} with {teachers} teachers: the two outputs differ")
        counts = [instructions(program, folder, expected, time_limit) for program in (posting, BASELINE)]
    return (*counts, raises)


def number(count):
    return "over" if count is None else f"{count:,}"


def quotient(one, other):
    return "" if one is None or other is None else f"{one / other:.2f}"


def main():
    parser = argparse.ArgumentParser(description=__doc__.splitlines()[0])
    parser.add_argument("--time-limit", type=float, default=600, help="seconds for one run (default 600)")
    parser.add_argument("posting", nargs="?", type=Path, default=POSTING, help="default crates/posting/out/posting")
    options = parser.parse_args()
    posting = options.posting.resolve()
    if not posting.is_file():
        sys.exit(f"{posting} is not there")
    build_baseline()

    results = {}
    for name in ("worst", "crowded"):
        for teachers in TEACHERS:
            print(f"measuring {name} with {teachers} teachers", file=sys.stderr, flush=True)
            results[name, teachers] = measure(name, teachers, posting, options.time_limit)

    print("Instructions, 80 lanes and 200 teachers; ratio is posting to baseline")
    print(f"{'round':<10}{'raises':>8}{'posting':>20}{'baseline':>16}{'ratio':>10}")
    for name in ("worst", "crowded"):
        of_posting, of_baseline, raises = results[name, TEACHERS[-1]]
        print(f"{name:<10}{raises:>8}{number(of_posting):>20}{number(of_baseline):>16}{quotient(of_posting, of_baseline):>10}")

    print()
    print("Growth with the teachers; factor is to the line before")
    print(f"{'round':<10}{'teachers':>8}{'raises':>8}{'posting':>20}{'factor':>8}{'baseline':>16}{'factor':>8}{'ratio':>10}")
    for name in ("worst", "crowded"):
        before = (None, None)
        for teachers in TEACHERS:
            of_posting, of_baseline, raises = results[name, teachers]
            print(
                f"{name:<10}{teachers:>8}{raises:>8}"
                f"{number(of_posting):>20}{quotient(of_posting, before[0]):>8}"
                f"{number(of_baseline):>16}{quotient(of_baseline, before[1]):>8}{quotient(of_posting, of_baseline):>10}"
            )
            before = (of_posting, of_baseline)


if __name__ == "__main__":
    main()
