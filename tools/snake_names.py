#!/usr/bin/env python3
"""Brings the names of this repository's own definitions and lemmas to today's spelling.

Definitions and record fields are in snake case. In a lemma's name a dash joins two names, as in
`xor_all-cons`, and a plain word is added with an underscore, as in `still_distinct`.
Run it once at the top of the repository, after the kit's own script has turned the rest.
Names that the checker makes (goals and what a proof is given) are not touched here.
"""
import glob
import re

# Definitions and record fields of specs/, and lemmas and locals that get underscores throughout.
PLAIN = """
after-word group-start group-fits group-cells group-word check-cell check-reads cause-number cause-text
fault-text word-from image-cell same-layer same-cells first-fault with-word zero-sum one-wrong-word
group-words position-of with-patch patch-answer count-with kept-or patch-cell patch-reads refusal-number
answer-number run-places in-run run-table-cell in-window window-cell window-reads
turned-port after-record space-of is-mark word-then to-next-mark between-marks last-mark marked-last
after-open after-put after-close open-one partition-of plane-means scan-of tape-means with-record
by-position word-found reads-back read-on read-fault own-fault by-sum by-reads by-fit passes-faults
from-reads followed-by kept-word-step with-patch-step kept-after still-distinct four-each zero-w zero-v
no-list a-list length-list after-mark before-marks above-mask at-mask at-end by-close by-content by-list
by-open by-put it-is last-is last-marked last-same list-le list-since mark-between marked-now marked-same
mirror-lt next-same one-le open-list open-so or-false or-none or-true put-so put-turned still-last
turned-below turned-from was-open word-between word-goes word-now yes-opens
""".split()

# Lemmas whose names join the names of two definitions.
JOINED = {
    "xor-all-cons": "xor_all-cons",
    "xor-all-set": "xor_all-set",
    "word-of-next": "word_of-next",
    "getD-even": "get_or-even",
    "length-partition": "length-partition_of",
    "bit-shl-low": "bit-shl_low",
    "nth-map": "slice_get-map",
    "nth-push": "slice_get-push",
}

NAMES = {name: name.replace("-", "_") for name in PLAIN} | JOINED
WORD = re.compile(r"(?<![\w'-])(" + "|".join(sorted(map(re.escape, NAMES), key=len, reverse=True)) + r")(?![\w'-])")


def turned(text):
    return WORD.sub(lambda m: NAMES[m.group(1)], text)


def turn(path, comment):
    """Turns a file's text, but for its comments."""
    with open(path, encoding="utf-8") as file:
        lines = file.read().split("\n")
    for i, line in enumerate(lines):
        code, mark, rest = line.partition(comment)
        lines[i] = turned(code) + mark + rest
    with open(path, "w", encoding="utf-8") as file:
        file.write("\n".join(lines))


def turn_page(path):
    """Turns the names that a page has in backticks."""
    with open(path, encoding="utf-8") as file:
        text = file.read()
    with open(path, "w", encoding="utf-8") as file:
        file.write(re.sub(r"`[^`\n]+`", lambda m: turned(m.group()), text))


def main():
    for path in glob.glob("crates/*/specs/**/*.antt", recursive=True) + glob.glob("crates/*/proofs/**/*.antt", recursive=True):
        turn(path, "--")
    for path in glob.glob("crates/*/src/**/*.rt", recursive=True):
        turn(path, "//")
    for path in ["README.md", *glob.glob("docs/*.md")]:
        turn_page(path)


main()
