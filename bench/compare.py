#!/usr/bin/env python3
"""Runs posting and the baseline on many made-up pairs of sheets and compares what they answer.

Usage: bench/compare.py [CASES] [SEED] [POSTING]

Most pairs are damaged in one or more places, the others are sound. A case is a difference when the standard output or the
exit status is not the same. The same CASES and SEED always make the same pairs.
"""

import random
import shutil
import subprocess
import sys
import tempfile
from collections import Counter
from pathlib import Path

sys.dont_write_bytecode = True
from common import BASELINE, POSTING, SCRATCH, build_baseline, posts_fields, sheet, staff_fields  # noqa: E402

TIME_LIMIT = 300  # seconds for one run
LONGEST = 30_000  # bytes of a sheet
KEPT = SCRATCH / "differences"


# ---------------------------------------------------------------------------------------------------- sound rounds

def make_round(rng, schools, subjects, lanes, teachers):
    """A sound round of this size, as the fields of its two sheets. `lanes` is cut down to what there is room for."""
    pairs = [(school, subject) for school in range(1, schools + 1) for subject in range(1, subjects + 1)]
    pairs = rng.sample(pairs, min(lanes, len(pairs)))
    if rng.random() < 0.3:
        pairs.sort()
    sizes = rng.choice([[0], [0, 1], [1], [0, 1, 2], [1, 2, 3], [0, 1, 2, 5, 59999, 60000], [teachers // 4 + 1], [60000]])
    points = rng.choice([[7], range(4), range(50), range(65536), [0, 1, 65534, 65535]])
    most_wishes = min(schools, 12)
    licences = rng.choice(["few", "some", "many", "all"])
    newcomers = rng.choice([0, 0.2, 0.5, 0.8, 1])
    crowd = rng.random() < 0.3  # all wish for the same few schools

    made_lanes = []
    for school, subject in pairs:
        listed = rng.sample(range(1, 201), rng.choice([0, 0, 1, 3, 19, 20]))
        made_lanes.append((school, subject, rng.choice(sizes), listed))

    made_teachers = []
    for _ in range(teachers):
        home = 0 if rng.random() < newcomers else rng.randint(1, schools)
        main = rng.randint(1, subjects)
        others = [subject for subject in range(1, subjects + 1) if subject != main]
        share = {"few": 0.1, "some": 0.4, "many": 0.8, "all": 1}[licences]
        also = [subject for subject in others if rng.random() < share]
        count = rng.choice([0, 1, most_wishes, rng.randint(0, most_wishes)])
        wish = rng.sample(range(1, schools + 1), count)
        if crowd:
            wish.sort()
        made_teachers.append((home, main, also, wish, rng.choice(points), rng.choice([0, 1, 50, 99, 100])))

    return posts_fields(schools, subjects, made_lanes), staff_fields(made_teachers)


def small_round(rng):
    schools, subjects = rng.randint(1, 4), rng.randint(1, 4)
    return make_round(rng, schools, subjects, rng.randint(1, schools * subjects), rng.randint(1, 6))


def middle_round(rng):
    return make_round(rng, rng.randint(1, 12), rng.randint(1, 10), rng.randint(1, 30), rng.randint(1, 40))


def large_round(rng):
    return make_round(rng, rng.choice([8, 13, 30]), rng.choice([3, 9, 10]), rng.choice([50, 79, 80]), rng.choice([100, 199, 200]))


def longest_round(rng):
    """Sheets that have as many bytes as sound ones can have."""
    pairs = [(school, 10) for school in range(10, 31)]
    pairs += rng.sample([(school, subject) for school in range(10, 31) for subject in range(1, 10)], 80 - len(pairs))
    rng.shuffle(pairs)
    lanes = [(school, subject, rng.randint(10000, 60000), rng.sample(range(100, 201), 20)) for school, subject in pairs]
    teachers = []
    for _ in range(200):
        main = rng.randint(1, 10)
        also = [subject for subject in range(1, 11) if subject != main]
        wish = rng.sample(range(10, 31), 12)
        teachers.append((rng.randint(10, 30), main, also, wish, rng.randint(10000, 65535), 100))
    return posts_fields(30, 10, lanes), staff_fields(teachers)


# -------------------------------------------------------------------------------------------------- damaged fields
# Each of these takes the fields of both sheets, which of the two to damage (0 posts, 1 staff) and the ranges of the sound
# round, and changes the fields.

MOST = {"list": 20, "also": 9, "wish": 12}  # keys whose value is a list


def ranges(fields):
    """For each key, the range of each of its numbers; of a list all have the same."""
    schools, subjects = fields[0][0][1][0], fields[0][1][1][0]
    return {
        "schools": [(1, 30)], "subjects": [(1, 10)], "lanes": [(1, 80)],
        "lane": [(1, schools), (1, subjects), (0, 60000)], "list": [(1, 200)],
        "teachers": [(1, 200)], "home": [(0, schools)], "main": [(1, subjects)], "also": [(1, subjects)],
        "wish": [(1, schools)], "points": [(0, 65535)], "cost": [(0, 100)],
    }


def pick_field(rng, fields, keys=None):
    """A field, keys with one line as often as keys with many."""
    keys = keys or sorted({key for key, _ in fields})
    key = rng.choice([key for key in keys if any(key == other for other, _ in fields)])
    return rng.choice([field for field in fields if field[0] == key])


def list_field(rng, fields):
    return pick_field(rng, fields, sorted(MOST))


def edge(rng, fields, which, bounds):
    """A number at an end of its range, or one past it."""
    key, numbers = pick_field(rng, fields[which])
    if not numbers:
        numbers.append(0)
    at = rng.randrange(len(numbers))
    low, high = bounds[key][at % len(bounds[key])]
    numbers[at] = rng.choice([low - 1, low, high, high + 1])


def odd_number(rng, fields, which, bounds):
    """A number that is too large for its field, or for a number, or is not well written."""
    _, numbers = pick_field(rng, fields[which])
    if not numbers:
        numbers.append(1)
    at = rng.randrange(len(numbers))
    number = numbers[at]
    numbers[at] = rng.choice([
        65535, 65536, 65537, 70000, 99999, 100000, 65535 * 65536, 2**16 + 1, 2**32 + 1, 2**64 + 1, "0" * 5, "00", "", "-0", "-1", "1e1",
        f"0{number}", f"00{number}", f"+{number}", f"-{number}", f" {number}", f"{number} ", f"{number}.0", f"0x{number}", f"{number}\t",
    ])


def number_count(rng, fields, which, bounds):
    """A number too many or too few."""
    key, numbers = pick_field(rng, fields[which])
    if numbers and rng.random() < 0.5:
        numbers.pop()
    else:
        numbers.append(rng.choice([1, 2, numbers[-1] if numbers else 1]))


def list_length(rng, fields, which, bounds):
    """A list with as many entries as are allowed, or one more."""
    key, numbers = list_field(rng, fields[which])
    low, high = bounds[key][0]
    count = MOST[key] + rng.randint(0, 1)
    if rng.random() < 0.7 and high - low + 1 >= count:
        numbers[:] = rng.sample(range(low, high + 1), count)
        if key == "also":
            numbers.sort()
    else:
        numbers[:] = [low] * count


def repeat_entry(rng, fields, which, bounds):
    """A list that names one number twice."""
    key, numbers = list_field(rng, fields[which])
    low, high = bounds[key][0]
    if not numbers:
        numbers.append(rng.randint(low, max(low, high)))
    if len(numbers) == MOST[key]:
        numbers.pop()
    numbers.insert(rng.randint(0, len(numbers)), rng.choice(numbers))


def shuffle_list(rng, fields, which, bounds):
    """A list in another order: a fault in `also`, but not elsewhere."""
    _, numbers = list_field(rng, fields[which])
    rng.shuffle(numbers)


def licence_main(rng, fields, which, bounds):
    """The main subject among the further licences."""
    staff = fields[1]
    at = rng.randrange(1, len(staff), 6)
    main, also = staff[at + 1][1], staff[at + 2][1]
    also += main
    if rng.random() < 0.8:
        also.sort()


def double_lane(rng, fields, which, bounds):
    """Two lanes with the same school and subject."""
    lanes = [numbers for key, numbers in fields[0] if key == "lane"]
    if len(lanes) > 1:
        one, other = rng.sample(lanes, 2)
        one[:2] = other[:2]


def head_count(rng, fields, which, bounds):
    """A head line that is off by one."""
    heads = ["schools", "subjects", "lanes"] if which == 0 else ["teachers"]
    _, numbers = pick_field(rng, fields[which], heads)
    numbers[:] = [number + rng.choice([-1, 1]) for number in numbers]


FIELD_DAMAGES = [
    edge, edge, odd_number, number_count, list_length, repeat_entry, shuffle_list, licence_main, double_lane, head_count,
]


# --------------------------------------------------------------------------------------------------- damaged bytes
# Each of these takes the bytes of a sheet and answers with other bytes.

KEYS = [b"schools", b"subjects", b"lanes", b"lane", b"list", b"teachers", b"home", b"main", b"also", b"wish", b"points", b"cost"]


def flip_bit(rng, data):
    if not data:
        return data
    at = rng.randrange(len(data))
    return data[:at] + bytes([data[at] ^ 1 << rng.randrange(8)]) + data[at + 1:]


def change_byte(rng, data):
    if not data:
        return data
    at = rng.randrange(len(data))
    return data[:at] + bytes([rng.choice(b"0123456789,,=\n\r \0\xffaz")]) + data[at + 1:]


def insert_byte(rng, data):
    at = rng.randint(0, len(data))
    return data[:at] + bytes([rng.choice(b"0123456789,,=\n\r \0\xffaz")]) + data[at:]


def remove_byte(rng, data):
    at = rng.randint(0, len(data))
    return data[:at] + data[at + 1:]


def cut_short(rng, data):
    return data[:rng.randint(0, len(data))]


def no_last_line_end(rng, data):
    return data[:-1]


def extra_bytes(rng, data):
    return data + rng.choice([b"\n", b"\n\n", b"0", b" ", b"\0", b"\r\n", b"cost=1\n", b"list=\n", b"lane=1,1,1\nlist=\n", b"\x1a", rng.randbytes(5)])


def empty(rng, data):
    return b""


def only_bytes(rng, data):
    return rng.choice([b"\n", b"=", b"\0", b"=\n", b"schools", b"schools=", b"schools=1", b"teachers=1\n", b"\xef\xbb\xbf" + data])


def lines_of(data):
    return data.splitlines(keepends=True)


def remove_line(rng, data):
    lines = lines_of(data)
    if lines:
        lines.pop(rng.randrange(len(lines)))
    return b"".join(lines)


def double_line(rng, data):
    lines = lines_of(data)
    if lines:
        at = rng.randrange(len(lines))
        lines.insert(at, lines[at])
    return b"".join(lines)


def swap_lines(rng, data):
    lines = lines_of(data)
    if len(lines) > 1:
        one = rng.randrange(len(lines) - 1)
        other = one + 1 if rng.random() < 0.5 else rng.randrange(len(lines))
        lines[one], lines[other] = lines[other], lines[one]
    return b"".join(lines)


def blank_line(rng, data):
    lines = lines_of(data)
    lines.insert(rng.randint(0, len(lines)), rng.choice([b"\n", b" \n", b"#\n", b"\r\n"]))
    return b"".join(lines)


def return_line_ends(rng, data):
    """CR LF line ends, all or one; or CR only."""
    lines = lines_of(data)
    kind = rng.choice(["all", "one", "only"])
    if kind == "only" or not lines:
        return data.replace(b"\n", b"\r")
    if kind == "all":
        return data.replace(b"\n", b"\r\n")
    at = rng.randrange(len(lines))
    lines[at] = lines[at].replace(b"\n", b"\r\n")
    return b"".join(lines)


def wrong_key(rng, data):
    """Another key, or the key spelled in another way."""
    lines = lines_of(data)
    if not lines:
        return data
    at = rng.randrange(len(lines))
    key, equals, value = lines[at].partition(b"=")
    key = rng.choice([
        rng.choice(KEYS), key.upper(), key.capitalize(), key[:-1], key + b"s", b" " + key, key + b" ", b"", key + equals, b"\n" + key,
    ])
    lines[at] = key + rng.choice([equals, equals, equals, b"", b":", b" = "]) + value
    return b"".join(lines)


def comma(rng, data):
    """A comma in front, behind, or doubled."""
    lines = lines_of(data)
    if not lines:
        return data
    at = rng.randrange(len(lines))
    line = lines[at]
    lines[at] = rng.choice([
        line.replace(b"=", b"=,", 1), line.replace(b"\n", b",\n"), line.replace(b",", b",,", 1), line.replace(b",", b"", 1),
        line.replace(b",", b", "), line.replace(b",", b";", 1),
    ])
    return b"".join(lines)


def long_line(rng, data):
    """A line with very many digits or entries, the sheet being still short enough or not."""
    lines = lines_of(data)
    if not lines:
        return data
    at = rng.randrange(len(lines))
    filler = rng.choice([b"1", b"0", b",1", b"x"]) * rng.choice([5, 6, 25, 300, 5000, LONGEST])
    lines[at] = lines[at].rstrip(b"\n") + filler + b"\n"
    return b"".join(lines)


def fill_up(rng, data):
    """A sheet of just 30,000 bytes, or one less or more, or many more; junk behind a sheet or in its last line."""
    length = LONGEST + rng.choice([-1, 0, 0, 1, 1, 2, 5536, 35536, 40000])
    filler = rng.choice([b"\n", b"0", b"cost=1\n", b"\0"])
    body = data if rng.random() < 0.6 else data[:-1] if rng.random() < 0.5 else b""
    return (body + filler * length)[:max(length, len(body))]


BYTE_DAMAGES = [
    flip_bit, change_byte, insert_byte, remove_byte, cut_short, no_last_line_end, extra_bytes, empty, only_bytes, remove_line,
    double_line, swap_lines, blank_line, return_line_ends, wrong_key, comma, long_line, fill_up,
]


# ----------------------------------------------------------------------------------------------------------- cases

def make_case(rng):
    """The bytes of a pair of sheets."""
    draw = rng.random()
    if draw < 0.30:  # sound
        kind = rng.choices([small_round, middle_round, large_round, longest_round], [600, 360, 38, 2])[0]
        return [sheet(fields) for fields in kind(rng)]
    kind = rng.choices([small_round, middle_round, large_round, longest_round], [800, 170, 28, 2])[0]
    fields = [[(key, list(numbers)) for key, numbers in side] for side in kind(rng)]
    if draw < 0.32:  # sheets in the wrong place
        pair = [sheet(side) for side in fields]
        return rng.choice([[pair[1], pair[0]], [pair[0], pair[0]], [pair[1], pair[1]]])
    # One fault mostly, sometimes two or three: then the one that is asked for first has to be told.
    damages = rng.choices([1, 2, 3], [75, 20, 5])[0]
    in_fields = sum(rng.random() < 0.5 for _ in range(damages))
    chosen = rng.choices(FIELD_DAMAGES, k=in_fields)
    chosen.sort(key=lambda damage: damage is odd_number)  # the others work with true numbers
    bounds = ranges(fields)
    for damage in chosen:
        damage(rng, fields, rng.randrange(2), bounds)
    pair = [sheet(side) for side in fields]
    for _ in range(damages - in_fields):
        which = rng.randrange(2)
        pair[which] = rng.choice(BYTE_DAMAGES)(rng, pair[which])
    return pair


def answer(program, folder, by_name):
    """Standard output and exit status of a program on the pair in the folder."""
    arguments = ["posts.txt", "staff.txt"] if by_name else []
    try:
        done = subprocess.run([program, *arguments], cwd=folder, stdin=subprocess.DEVNULL, capture_output=True, timeout=TIME_LIMIT)
    except subprocess.TimeoutExpired:
        return b"(over the time limit)", None
    return done.stdout, done.returncode


def keep(number, folder, posting, baseline):
    """Keeps a pair on which the two differ, with both answers."""
    place = KEPT / f"case-{number}"
    shutil.rmtree(place, ignore_errors=True)
    shutil.copytree(folder, place)
    for name, (output, status) in (("posting", posting), ("baseline", baseline)):
        (place / f"{name}.out").write_bytes(output)
        (place / f"{name}.status").write_text(f"{status}\n")
    return place


def tally(spread, output):
    """Counts the kind of answer."""
    lines = output.decode(errors="replace").splitlines()
    if len(lines) >= 2 and lines[0].startswith("refused="):
        spread[lines[1], lines[0]] += 1
    else:
        spread["settled"] += 1
        if lines and lines[0] != "raises=0":
            spread["raised"] += 1


def print_spread(spread):
    print(f"settled: {spread['settled']}, of these with raises: {spread['raised']}")
    for side, name in ((1, "posts"), (2, "staff")):
        counts = [spread[f"sheet={side}", f"refused={number}"] for number in range(1, 9)]
        print(f"refused, {name}: " + ", ".join(f"{number}: {count}" for number, count in enumerate(counts, 1)))
        for number, count in enumerate(counts, 1):
            if count == 0 and (side, number) != (2, 7):  # only a lane line can be refused with 7
                print(f"note: no case was refused with {number} on {name}; take more cases")


def main():
    arguments = sys.argv[1:]
    if len(arguments) > 3 or any(argument.startswith("-") for argument in arguments):
        sys.exit(__doc__)
    cases = int(arguments[0]) if arguments else 10_000
    seed = int(arguments[1]) if len(arguments) > 1 else 1
    posting = Path(arguments[2]).resolve() if len(arguments) > 2 else POSTING
    if not posting.is_file():
        sys.exit(f"{posting} is not there")
    build_baseline()

    spread = Counter()
    differences = 0
    with tempfile.TemporaryDirectory() as folder:
        folder = Path(folder)
        for number in range(1, cases + 1):
            rng = random.Random(f"{seed} {number}")
            posts, staff = make_case(rng)
            (folder / "posts.txt").write_bytes(posts)
            (folder / "staff.txt").write_bytes(staff)
            by_name = number % 20 != 0  # every 20th case goes by the default names
            of_posting = answer(posting, folder, by_name)
            of_baseline = answer(BASELINE, folder, by_name)
            tally(spread, of_baseline[0])
            if of_posting != of_baseline:
                differences += 1
                print(f"difference in case {number}: {keep(number, folder, of_posting, of_baseline)}", flush=True)
    print_spread(spread)
    print(f"{cases} cases, {differences} differences")
    sys.exit(1 if differences else 0)


if __name__ == "__main__":
    main()
