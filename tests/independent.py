#!/usr/bin/env python3
"""Runs the program `posting` on random and damaged sheets, and compares what it prints with an implementation
that shares no code with it and works in another way: it follows docs/, and lets teachers ask one lane after another.

    tests/independent.py [CASES] [SEED] [PROGRAM]

prints a line for each difference, and a count at the end; the status is 1 if there was any difference."""
import os
import random
import subprocess
import sys
import tempfile


class Fault(Exception):
    def __init__(self, number, sheet, line, place):
        self.parts = (number, sheet, line, place)


class Reader:
    """One sheet, read line by line."""

    def __init__(self, sheet, data):
        self.sheet, self.data, self.line, self.at = sheet, data, 1, 0
        if len(data) > 30000:
            raise Fault(1, sheet, 0, 0)

    def no(self, number):
        raise Fault(number, self.sheet, self.line, self.at)

    def number(self, piece):
        if not 1 <= len(piece) <= 5 or any(c not in b"0123456789" for c in piece):
            self.no(4)
        if len(piece) > 1 and piece[0] == 48:
            self.no(4)
        value = int(piece)
        if value > 65535:
            self.no(4)
        return value

    def field(self, key, least, most, ranges, checks=()):
        end = self.data.find(b"\n", self.at)
        if end < 0:
            self.no(2)
        text = self.data[self.at:end]
        if not text.startswith(key + b"="):
            self.no(3)
        value = text[len(key) + 1:]
        pieces = value.split(b",") if value else []
        if not least <= len(pieces) <= most:
            self.no(4)
        numbers = [self.number(p) for p in pieces]
        for i, n in enumerate(numbers):
            low, high = ranges[min(i, len(ranges) - 1)]
            if not low <= n <= high:
                self.no(5)
        for number, check in checks:
            if not check(numbers):
                self.no(number)
        self.line += 1
        self.at = end + 1
        return numbers

    def end(self):
        if self.at != len(self.data):
            self.no(8)


def distinct(ns):
    return len(set(ns)) == len(ns)


def read(posts, staff):
    r = Reader(1, posts)
    schools = r.field(b"schools", 1, 1, [(1, 30)])[0]
    subjects = r.field(b"subjects", 1, 1, [(1, 10)])[0]
    count = r.field(b"lanes", 1, 1, [(1, 80)])[0]
    lanes = []
    for _ in range(count):
        new = [(7, lambda ns: all((l[0], l[1]) != (ns[0], ns[1]) for l in lanes))]
        lane = r.field(b"lane", 3, 3, [(1, schools), (1, subjects), (0, 60000)], new)
        r.field(b"list", 0, 20, [(1, 200)], [(6, distinct)])
        lanes.append(lane)
    r.end()
    r = Reader(2, staff)
    count = r.field(b"teachers", 1, 1, [(1, 200)])[0]
    teachers = []
    for _ in range(count):
        home = r.field(b"home", 1, 1, [(0, schools)])[0]
        main = r.field(b"main", 1, 1, [(1, subjects)])[0]
        rising = [(6, lambda ns: all(a < b for a, b in zip(ns, ns[1:])) and main not in ns)]
        also = r.field(b"also", 0, 9, [(1, subjects)], rising)
        wish = r.field(b"wish", 0, 12, [(1, schools)], [(6, distinct)])
        points = r.field(b"points", 1, 1, [(0, 65535)])[0]
        r.field(b"cost", 1, 1, [(0, 100)])
        teachers.append((home, main, also, wish, points))
    r.end()
    return schools, lanes, teachers


def pick_list(schools, lanes, teacher):
    home, main, also, wish, _ = teacher
    order = list(wish)
    if home:
        order += [s for s in range(1, schools + 1) if s not in wish]
    picks = []
    for school in order:
        here = [(i, l[1]) for i, l in enumerate(lanes) if l[0] == school]
        picks += [i for i, subject in here if subject == main]
        picks += [i for i, subject in here if subject in also]
    return picks


def band(teacher, subject):
    home, main, _, _, _ = teacher
    return (1 if main == subject else 2) if home else (3 if main == subject else 4)


def result(schools, lanes, teachers):
    """Deferred acceptance: a teacher who is turned away asks the next lane. The cutoffs follow from who was turned away."""
    picks = [pick_list(schools, lanes, t) for t in teachers]
    orders = []
    for lane in lanes:
        able = [i for i, t in enumerate(teachers) if lane[1] == t[1] or lane[1] in t[2]]
        able.sort(key=lambda i: (band(teachers[i], lane[1]), -teachers[i][4], i))
        orders.append(able)
    ranks = [{t: len(able) - place for place, t in enumerate(able)} for able in orders]
    cuts = [1] * len(lanes)
    at = [0] * len(teachers)
    waiting = list(range(len(teachers)))
    held = [[] for _ in lanes]
    while waiting:
        t = waiting.pop()
        while at[t] < len(picks[t]) and ranks[picks[t][at[t]]][t] < cuts[picks[t][at[t]]]:
            at[t] += 1
        if at[t] == len(picks[t]):
            continue
        l = picks[t][at[t]]
        held[l].append(t)
        if len(held[l]) > lanes[l][2]:
            last = min(held[l], key=lambda x: ranks[l][x])
            held[l].remove(last)
            cuts[l] = ranks[l][last] + 1
            waiting.append(last)
    seats = [0] * len(teachers)
    for l, group in enumerate(held):
        for t in group:
            seats[t] = l + 1
    return cuts, seats


def expected(posts, staff):
    try:
        cuts, seats = result(*read(posts, staff))
    except Fault as fault:
        return 1, b"refused=%d\nsheet=%d\nline=%d\nplace=%d\n" % fault.parts
    joined = lambda ns: ",".join(map(str, ns)).encode()
    raises = sum(cuts) - len(cuts)
    return 0, b"raises=%d\ncut=%s\nseat=%s\n" % (raises, joined(cuts), joined(seats))


def some(rng, low, high, most):
    pool = list(range(low, high + 1))
    rng.shuffle(pool)
    return pool[:rng.randint(0, min(most, len(pool)))]


def sample(rng, most_lanes, most_teachers):
    schools = rng.randint(1, rng.choice([2, 5, 30]))
    subjects = rng.randint(1, rng.choice([2, 4, 10]))
    pairs = [(s, k) for s in range(1, schools + 1) for k in range(1, subjects + 1)]
    rng.shuffle(pairs)
    pairs = pairs[:rng.randint(1, min(most_lanes, len(pairs)))]
    join = lambda ns: ",".join(map(str, ns))
    posts = [f"schools={schools}", f"subjects={subjects}", f"lanes={len(pairs)}"]
    for s, k in pairs:
        size = rng.choice([0, 1, 1, 2, 3, rng.randint(0, 60000)])
        posts += [f"lane={s},{k},{size}", f"list={join(some(rng, 1, 200, 20))}"]
    count = rng.randint(1, most_teachers)
    staff = [f"teachers={count}"]
    for _ in range(count):
        main = rng.randint(1, subjects)
        also = sorted(x for x in some(rng, 1, subjects, 9) if x != main)
        points = rng.choice([rng.randint(0, 3), rng.randint(0, 65535)])
        staff += [f"home={rng.randint(0, schools)}" if rng.random() < 0.5 else "home=0", f"main={main}",
                  f"also={join(also)}", f"wish={join(some(rng, 1, schools, 12))}", f"points={points}", f"cost={rng.randint(0, 100)}"]
    return ["".join(l + "\n" for l in sheet).encode() for sheet in (posts, staff)]


def damaged(rng, sheet):
    data = bytearray(sheet)
    for _ in range(rng.choice([1, 1, 1, 2, 3])):
        at = rng.randint(0, len(data)) if data else 0
        what = rng.randint(0, 5)
        byte = rng.choice([10, 13, 32, 44, 45, 48, 49, 57, 61, 104, 0, 255, rng.randint(0, 255)])
        if what == 0:
            del data[at:at + rng.choice([1, 1, 1, 5, 40])]
        elif what == 1:
            data[at:at] = bytes([byte])
        elif what == 2 and at < len(data):
            data[at] = byte
        elif what == 3:
            lines = bytes(data).split(b"\n")
            i, j = rng.randrange(len(lines)), rng.randrange(len(lines))
            lines[i], lines[j] = lines[j], lines[i]
            data = bytearray(b"\n".join(lines))
        elif what == 4:
            data += rng.choice([b"\n", b"x", b"cost=1\n", b"\n" * 30000])
        else:
            digits = [i for i, c in enumerate(data) if 48 <= c <= 57]
            if digits:
                i = rng.choice(digits)
                data[i:i + 1] = str(rng.choice([0, 7, 10, 31, 81, 101, 201, 60001, 65535, 65536, 99999])).encode()
    return bytes(data)


def main():
    cases = int(sys.argv[1]) if len(sys.argv) > 1 else 20000
    seed = int(sys.argv[2]) if len(sys.argv) > 2 else 1
    here = os.path.dirname(os.path.abspath(__file__))
    program = sys.argv[3] if len(sys.argv) > 3 else os.path.join(here, "..", "crates", "posting", "out", "posting")
    rng = random.Random(seed)
    wrong, refused = 0, 0
    with tempfile.TemporaryDirectory() as folder:
        names = [os.path.join(folder, n) for n in ("posts.txt", "staff.txt")]
        for case in range(cases):
            large = rng.random() < 0.01
            sheets = sample(rng, 80 if large else 8, 200 if large else 14)
            if rng.random() < 0.5:
                i = rng.randint(0, 1)
                sheets[i] = damaged(rng, sheets[i])
            for name, data in zip(names, sheets):
                with open(name, "wb") as f:
                    f.write(data)
            want = expected(*sheets)
            ran = subprocess.run([program] + names, capture_output=True)
            refused += want[0]
            if (ran.returncode, ran.stdout) != want:
                wrong += 1
                print(f"case {case}: expected {want}, got {(ran.returncode, ran.stdout)}")
    print(f"{cases} cases (seed {seed}), {refused} of them refused, {wrong} differences")
    sys.exit(1 if wrong else 0)


main()
