#!/usr/bin/env python3
"""Brings the repository's own definitions and lemmas to the spelling of today's Rattle: words in snake case, types and facts
in camel case. Run once, at the top of the repository, behind the toolchain's own script for older repositories.

It goes by the table below, over the files of specs/, proofs/ and src/ of each crate, word by word, and leaves comments and
text in quotes as they are. Names of the Rust code keep their spelling; so do names that the checker makes from them."""

import glob
import re
import sys

# Definitions of specs/, crate by crate, and then lemmas and local names of proofs/. All that is not here had the spelling.
TABLE = """
bit-differs check-below digits-few divides-only inverted-spoils inverted-twice p-is product-idle product-low product-sum q-is
reduced-high reduced-low remainder-more remainder-next remainder-none sum-cancel sum-crossed sum-shift times-apart times-is
word-check word-checks word-content word-divides word-reads checkOf lastBitInverted remainderOf
allAgree
beginsWith syuOf load-transfer
acuContent acuFields acuFrom acuOf
allCheck contentsIn contentsOf isAcu
at-put block-length block-sound contents-length contents-short filled-all put-there short-all syu-there syus-length syus-short
digitOf fieldsBehind numberFrom
blanks-passed no-rest number-fails number-none rest-is run-grows
complaintOf goodIn passageShown readingIn wrongOf
acuLine acuOfFields acuOfLine contentsLine marksLine marksOfFields orderFrom orderShown putField putFields readAs
field-longer fields-complained fields-fail fields-more put-longer
acuOrdered codesUsed passageOf
map-alike
answerText complaintLine hexOf lineText placeLines placeText printedText readingText reportText wrongText
lines-all lines-push
showsRemainder
"""

# Where the rule alone does not give the name: a fact is spelled as a type, and a lemma that would fall together with the
# definition that it is about has another ending.
TOLD = {"Examples-agree": "ExamplesAgree", "all-check": "all_check_lem"}

WORD = re.compile(r"[A-Za-z_ℕ][\w'₀-₉-]*")


def snake(name):
    return re.sub(r"([a-z0-9])([A-Z])", lambda m: m.group(1) + "_" + m.group(2).lower(), name).replace("-", "_")


def table():
    names = {name: snake(name) for name in TABLE.split()} | TOLD
    again = [new for new in names.values() if list(names.values()).count(new) > 1]
    if again:
        sys.exit(f"names fall together: {sorted(set(again))}")
    return names


def pieces(line, comment):
    """The line cut into code and what is left alone: text in quotes, and a comment."""
    return re.split(r'("(?:[^"\\]|\\.)*"|(?:^|(?<=\s))' + comment + r"(?:\s.*|/.*|$))", line)


def turned(text, comment, names):
    lines = []
    for line in text.split("\n"):
        parts = pieces(line, comment)
        for i in range(0, len(parts), 2):
            parts[i] = WORD.sub(lambda m: names.get(m.group(0), m.group(0)), parts[i])
        lines.append("".join(parts))
    return "\n".join(lines)


def main():
    names = table()
    files = glob.glob("crates/*/src/**/*.rt", recursive=True)
    for folder in ("specs", "proofs"):
        files += glob.glob(f"crates/*/{folder}/**/*.antt", recursive=True)
    seen = set()
    for path in sorted(files):
        with open(path, encoding="utf-8") as f:
            text = f.read()
        comment = "//" if path.endswith(".rt") else "--"
        for part in text.split("\n"):
            seen |= set(WORD.findall("".join(pieces(part, comment)[0::2])))
    met = sorted(new for old, new in names.items() if new in seen)
    for path in sorted(files):
        with open(path, encoding="utf-8") as f:
            text = f.read()
        new = turned(text, "//" if path.endswith(".rt") else "--", names)
        if new != text:
            with open(path, "w", encoding="utf-8") as f:
                f.write(new)
    print(f"{len(names)} names; already used elsewhere, so look that they do not fall together: {met}")
    print(f"in the table and not in the files: {sorted(set(names) - seen)}")


if __name__ == "__main__":
    main()
