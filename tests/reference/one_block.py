#!/usr/bin/env python3
"""What send_block has to print, worked out apart from the code and its definitions.

Reads orders of three lines each from standard input and writes what has to be printed of each: the remainder by long division
of polynomials, the block by string operations on bits. The expected output of crates/send_block and crates/send_cases comes
from here:  tests/reference/one_block.py < crates/send_cases/stdin"""
import re
import sys

PATTERN = "1011000000000000"


class Wrong(Exception):
    pass


def bits(value, width):
    return format(value, f"0{width}b")


def check(content):
    """The inverted remainder of the content's twenty bits and eight zeros on division by 100000111."""
    dividend = list(content + "0" * 8)
    for i in range(20):
        if dividend[i] == "1":
            for k, d in enumerate("100000111"):
                dividend[i + k] = "0" if dividend[i + k] == d else "1"
    return "".join("0" if b == "1" else "1" for b in dividend[20:])


def number(field, digits, base):
    if not re.fullmatch(f"[{digits}]+", field) or int(field, base) >= 2**32:
        return None
    return int(field, base)


def contents(line):
    units = []
    for place, field in enumerate(line.split(), 1):
        value = number(field, "0-9A-Fa-f", 16)
        if value is None:
            raise Wrong(f"line 1, field {place}: cannot be understood")
        if value >= 2**20:
            raise Wrong(f"line 1, field {place}: refused, 4")
        if len(units) == 11:
            raise Wrong(f"line 1, field {place}: refused, 10")
        units.append(bits(value, 20))
    return units


def fixed(line, which, forms):
    fields = line.split()
    values = []
    for place, form in enumerate(forms, 1):
        if place > len(fields):
            raise Wrong(f"line {which}, field {place}: missing")
        if not re.fullmatch(form, fields[place - 1]) or int(fields[place - 1]) >= 2**32 and form == "[0-9]+":
            raise Wrong(f"line {which}, field {place}: cannot be understood")
        values.append(fields[place - 1])
    if len(fields) > len(forms):
        raise Wrong(f"line {which}, field {len(forms) + 1}: cannot be understood")
    return values


def report(first, second, third):
    units = contents(first)
    indicators, acknowledged, own = fixed(second, 2, ["[01]{11}", "[0-9]+", "[0-9]+"])
    for place, value in ((2, acknowledged), (3, own)):
        if int(value) > 7:
            raise Wrong(f"line 2, field {place}: refused, 4")
    (marks,) = fixed(third, 3, ["[01]{12}"])
    units += [PATTERN + bits(place, 4) for place in range(len(units) + 1, 12)]
    units.append("011" + indicators + bits(int(acknowledged), 3) + bits(int(own), 3))
    lines, good = [], 0
    for place, (unit, mark) in enumerate(zip(units, marks), 1):
        sent = unit + check(unit)
        arrived = sent if mark == "0" else sent[:27] + ("1" if sent[27] == "0" else "0")
        fits = check(arrived[:20]) == arrived[20:]
        good += fits
        read = f"good {int(arrived[:20], 2):05X}" if fits else "spoiled"
        lines.append(f"{place} {int(sent, 2):07X} {int(arrived, 2):07X} {read}")
    return "\n".join(lines) + f"\n{good} of 12 good"


def main():
    lines = sys.stdin.read().split("\n")
    for i in range(0, len(lines) - 1, 3):
        order = (lines[i : i + 3] + ["", ""])[:3]
        try:
            print(report(*order))
        except Wrong as wrong:
            print(wrong)


main()
