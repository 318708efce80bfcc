#!/usr/bin/env python3
"""Counts the places that docs/DESIGN-PASS.md speaks of, in crates/*/src: `python3 tools/places.py [-v]` at the top of a checkout; -v prints each place."""
import glob
import re
import sys

POINTS = [
    ("1 enums", r"^ *(pub )?enum \w+"),
    ("1 flags in structs", r"^ +(pub )?\w+: bool,$"),
    ("1 numbers for refusals", r"^(pub )?fn (check|refus)\w*\(.*-> u32$|^ +Refused\(u32|^ +(pub )?number: u32,$"),
    ("1 numbers that stand for nothing", r"\b(BAD|TOO_MANY)\b|// .*\b0 where (there|they|it)\b"),
    ("3 loops by hand", r"^ *while "),
    ("4 by hand: comparing, converting, the lesser", r"fn (same_\w+|\w+_bad|least|num_bits|chroma_format_idc|kind_of|depth_of|flag|in_numbers|answer_of)\("),
    ("4 types without PartialEq", r"^#\[derive\((?!.*PartialEq).*\)\]"),
    ("4 fields named twice", r"\b(\w+): \1,"),
    ("5 locals that only name a field", r"^ *let \w+ = \w+\.\w+;$"),
    ("6 buffers with a length or places beside", r"^ +(pub )?\w+: \[\w+; \w+\],$|let mut \w+ = \[\w+; \w+\];"),
]

said = "-v" in sys.argv[1:]
files = sorted(glob.glob("crates/*/src/*.rt"))
for name, pattern in POINTS:
    places = [(path, n, line.strip()) for path in files for n, line in enumerate(open(path), 1) if re.search(pattern, line)]
    print("%-50s %4d" % (name, len(places)))
    if said:
        for path, n, line in places:
            print("    %s:%d: %s" % (path, n, line))

many = []
facts = {}
for path in files:
    text = open(path).read()
    for found in re.finditer(r"fn (\w+)(?:<[^>]*>)?\(([^)]*)\)", text):
        count = len([part for part in found.group(2).split(",") if part.strip()])
        if count >= 6:
            many.append((path, found.group(1), count))
    for found in re.finditer(r"^ +requires (?:\w+ )?\{ (.*) \}$", text, re.M):
        for fact in found.group(1).split(" × "):
            facts.setdefault((path.split("/")[1], fact.strip("() ")), []).append(path)
print("%-50s %4d" % ("5 functions of six parameters or more", len(many)))
if said:
    for place in many:
        print("    %s: %s, %d" % place)
often = {fact: places for fact, places in facts.items() if len(places) >= 3}
print("%-50s %4d" % ("5 facts that three contracts or more require", len(often)))
if said:
    for (crate, fact), places in sorted(often.items(), key=lambda item: -len(item[1])):
        print("    %s: %s, %d times" % (crate, fact, len(places)))
