#!/usr/bin/env python3
"""Turns the repository's own definitions and lemmas to snake case, and its types to camel case.

usage: python3 tools/respell.py   (at the top, once, right after the toolchain's port.py)

A name is the repository's own where a file of specs/ or proofs/ states it. Names that Rattle makes (the goals and steps of a
function) are left: they stand after `goal.`, `c.` and `l.`. Functions of src/, strings and comments are left too.
"""

import glob
import re
import sys

WORD = r"[A-Za-z_\u0370-\u03ff\u2115][\w'\u2032\u2080-\u2089]*"
NAME = WORD + r"(?:-[\w'\u2032\u2080-\u2089\u2262\u2261]+)+"
MARKS = r"(?:(?:pub|abbrev|unfoldable|ruleset|data|record)\s+)*"
SIGNATURE = re.compile(r"^\s*" + MARKS + r"((?:%s|%s)(?:\s+(?:%s|%s))*)\s*(?:\{[^}]*\}|\([^)]*\))*\s*:(?!:)" % (NAME, WORD, NAME, WORD))
TOKEN = re.compile(r"(?<![\w'\u2032\u2080-\u2089-])" + NAME)
MADE = re.compile(r"(?:^|[^\w'.])(?:goal|c|l)\.$")
# names that are types, or that would fall together with a function of src/
OTHERS = {
    "Some-place": "SomePlace",
    "Lawful-table": "LawfulTable",
    "Filled-in": "FilledIn",
    "Read-segment": "ReadSegment",
    "Read-rule": "ReadRule",
    "until-unroll": "UntilUnroll",
    "release-unroll": "ReleaseUnroll",
    "is-unfit": "channel_unfit",
    "natAbs-neg": "unsigned_abs_neg",
    "listing-getD": "listing_get_or",
    "getD-listing": "get_or_listing",
}
# ghost aliases and names of parameters that no signature states
ALIASES = {
    n: n.replace("-", "_")
    for n in (
        "margin-scale verdict-scale walk-plus a-summary a-watch after-it at-flipped at-marks below-rules next-step not-allowed of-log"
        " of-volume rest-made some-made test-steps two-way"
    ).split()
}


def files():
    return sorted(glob.glob("crates/**/*.antt", recursive=True) + glob.glob("crates/**/*.rt", recursive=True))


def own_names():
    names = set()
    for path in files():
        if not path.endswith(".antt"):
            continue
        for line in open(path, encoding="utf-8"):
            m = None if line.lstrip().startswith("--") else SIGNATURE.match(line)
            for n in m.group(1).split() if m else []:
                if "-" in n and not re.search(r":\s*goal\." + re.escape(n) + r"\s*$", line):
                    names.add(n)
    return names


def code_parts(path, line):
    """The line cut into (is it code, text): comments and strings are no code."""
    if path.endswith(".antt"):
        m = re.search(r"(^|\s)--(\s|$)", line)
        return [(True, line[: m.start()]), (False, line[m.start() :])] if m else [(True, line)]
    parts, at = [], 0
    for m in re.finditer(r'"(?:[^"\\]|\\.)*"|//.*', line):
        parts += [(True, line[at : m.start()]), (False, m.group(0))]
        at = m.end()
    return parts + [(True, line[at:])]


def main():
    names = {n: n.replace("-", "_") for n in own_names()}
    names.update(ALIASES)
    names.update(OTHERS)
    for path in files():
        out = []
        for line in open(path, encoding="utf-8").read().split("\n"):
            turned = ""
            for code, text in code_parts(path, line):
                if code:
                    text = TOKEN.sub(lambda m: m.group(0) if MADE.search(text[: m.start()]) else names.get(m.group(0), m.group(0)), text)
                turned += text
            out.append(turned)
        with open(path, "w", encoding="utf-8") as f:
            f.write("\n".join(out))
    for n in sorted(names):
        print(n, names[n])


if __name__ == "__main__":
    sys.exit(main())
