#!/usr/bin/env python3
"""Makes what the program `guide` must write, from the column `expected` of the worked packets alone:

    python3 tools/guide_expected.py < crates/guide/stdin > crates/guide/stdout

Of that column stay `refused N`, or what an accepted packet says; notes in parentheses and brackets, places (`@p`) and what
holds after a later request (`; E1: ..`) go. Three things are put in here:
- ` same` after an accepted packet: written again from what was read, it gives the words that were lent;
- `count=N` of a response, where the column leaves it out: the MSB of word 03, taken from the hex words by the rule for word 00;
- nothing else: where the column has a field, it is the column's.
"""
import re
import sys


def instance_count(form, words):
    """The MSB of word 03 of a response. Word 00 is there in framed form if the first word's MSB is FF."""
    headed = form == "framed" and words[0].startswith("FF")
    return int(words[3 if headed else 2][:2], 16)


def verdict(direction, form, words, expected):
    said = re.split(r"; E1:| \(| \[", expected)[0].strip()
    refused = re.match(r"refused \d+", said)
    if refused:
        return refused.group(0)
    assert said.startswith("ok "), expected
    if direction == "response" and " count=" not in said:
        said = re.sub(r"( node=\d+)", r"\1 count=%d" % instance_count(form, words), said)
    return said + " same"


def main():
    for line in sys.stdin:
        if line.startswith("#") or not line.strip():
            continue
        name, direction, form, words, expected, _source = [field.strip() for field in line.split("|")]
        print(name, verdict(direction, form, words.split(), expected))


main()
