"""What compare.py and measure.py share: where things are, building the baseline, writing sheets."""

import subprocess
from pathlib import Path

ROOT = Path(__file__).resolve().parent.parent
POSTING = ROOT / "crates/posting/out/posting"
SCRATCH = ROOT / "target/bench"
BASELINE = SCRATCH / "baseline"

# Run from the root of the repository.
BUILD = "rustc -O --edition 2021 -o target/bench/baseline bench/baseline/main.rs"


def build_baseline():
    SCRATCH.mkdir(parents=True, exist_ok=True)
    subprocess.run(BUILD.split(), cwd=ROOT, check=True)


# A sheet is made as a list of fields, each a key and a list of numbers.

def posts_fields(schools, subjects, lanes):
    """`lanes` is a list of (school, subject, size, list of teachers)."""
    fields = [("schools", [schools]), ("subjects", [subjects]), ("lanes", [len(lanes)])]
    for school, subject, size, teachers in lanes:
        fields += [("lane", [school, subject, size]), ("list", teachers)]
    return fields


def staff_fields(teachers):
    """`teachers` is a list of (home, main, also, wish, points, cost)."""
    fields = [("teachers", [len(teachers)])]
    for home, main, also, wish, points, cost in teachers:
        fields += [("home", [home]), ("main", [main]), ("also", also), ("wish", wish)]
        fields += [("points", [points]), ("cost", [cost])]
    return fields


def sheet(fields):
    """The bytes of a sheet."""
    return "".join(f"{key}={','.join(map(str, numbers))}\n" for key, numbers in fields).encode()
