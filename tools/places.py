#!/usr/bin/env python3
"""Counts the places in crates/*/src that docs/DESIGN-PASS.md speaks of, point by point.

    python3 tools/places.py [COMMIT] [--list]

With a commit the files are those of that commit, else those of the working tree. --list prints each place. The patterns only find
candidates; the page says of each what became of it."""
import re
import subprocess
import sys

POINTS = {
    "1a an enum's case that says there is no value yet": r"^\s*(Pending|Nothing|Missing|Absent),?$",
    "1b a bool answered beside a lent value that is written": r"fn \w+(?:<[^>]*>)?\s*\((?=[^)]*&mut (?!self\))[^)]*\)\s*->\s*bool|fn \w+(?:<[^>]*>)?\s*\(\s*&mut self[^)]*\)\s*->\s*bool)[^)]*\)\s*->\s*bool",
    "1c a number for a sheet": r"\bsheet: u8\b|\bsheet: \d+|\bsheet == \d|match sheet\b",
    "1d a number for a refusal or for no answer": r"\b1000+ \+|number: u8|=> 0,\n|Ok\(\(\)\) => 0",
    "1e an error of its own made from a call's error by hand": r"let Ok\(\(?[\w()]*\)?\) = [^;]*else|Err\(_\) => (?:Err|None|0|false)|Err\((\w+)\) => Err\(",
    "2 copies found by name: smaller, head_count, is_within, first_bytes, read_sheet, Stop": r"fn (?:smaller|head_count|is_within|first_bytes|read_sheet)\b|enum Stop\b|for Stop\b",
    "2 one function a key": r"fn \w+_value\(line",
    "2 the same loop over another table": r"fn (?:put_lanes|put_teachers|fill_lanes|fill_teachers|gather_teachers|gather_lanes|count_members|weigh|count_newcomers)\b",
    "2 measure, compare, write": r"let mut no_room\b",
    "3 index counted by hand": r"\bwhile [^{]*\{|for \w+ in \S+\.\.=?[^{]*\{",
    "3 loop that gives up at a bound": r"if i == \d+ \{\n\s*break;",
    "4 a number or a name for each case by hand": r"fn (?:number|layer|reason|what_is_wrong|wish_name|source_name|sheet_name|refusal_of|mark|same_pair)\b",
    "4 From by hand for a program's error": r"impl From<[^>]*> for Stop\b",
    "5 bytes with a line and a place": r"Spot \{",
    "5 lanes with a teacher and a school": r"lanes: &\[Lane\],[^)]*p: &Teacher",
    "5 schools with subjects": r"schools: u16,\s*subjects: u16",
    "5 a buffer with the place that is due": r"buf: &mut \[u8\], at: usize",
    "5 the two sheets": r"posts: &\[u8\],\s*staff: &\[u8\]|posts: &'a \[u8\],\s*staff: &'a \[u8\]",
    "6 array with a length beside": r"\[u16; N\]|order: &mut \[u8\], m: usize|order: &\[u8\],\s*m: usize",
    "6 array with a count kept elsewhere": r"let mut \w+ = \[[^\]]*; (?:80|200)\]",
    "6 table by a product": r"\* 200 \+",
    "7 switch on what to do": r"column: Column|main: bool|match key \{",
}


def files(commit):
    if commit:
        names = subprocess.run(["git", "ls-tree", "-r", "--name-only", commit, "crates"], capture_output=True, text=True, check=True).stdout.split()
    else:
        names = subprocess.run(["git", "ls-files", "-co", "--exclude-standard", "crates"], capture_output=True, text=True, check=True).stdout.split()
    for name in sorted(set(names)):
        if "/src/" in name and name.endswith(".rt"):
            if commit:
                text = subprocess.run(["git", "show", f"{commit}:{name}"], capture_output=True, text=True, check=True).stdout
            else:
                try:
                    text = open(name).read()
                except FileNotFoundError:
                    continue
            yield name, text


def main():
    args = [a for a in sys.argv[1:] if not a.startswith("--")]
    commit = args[0] if args else None
    texts = list(files(commit))
    for point, pattern in POINTS.items():
        found = []
        for name, text in texts:
            for m in re.finditer(pattern, text, re.M):
                found.append(f"    {name}:{text.count(chr(10), 0, m.start()) + 1}: {' '.join(m.group(0).split())[:90]}")
        print(f"{len(found):4} {point}")
        if "--list" in sys.argv:
            print("\n".join(found))


main()
