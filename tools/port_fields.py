#!/usr/bin/env python3
"""Spells the fields of the repository's records as today's Rattle does: in snake case, with no dash.

usage: python3 tools/port_fields.py     at the top of the repository, after tools/port_names.py

It turns these names wherever they stand as a whole word, in .antt files and in the code spans of pages.
"""

import os
import re

FIELDS = """
bytes-are epoch-fits image-write image-check image-describe image-look cell-leaves fresh-leaves fetch-leaves
longest-leaves store-leaves store-refused remove-leaves remove-refused slice-counts slice-leaves check-counts
image-counts image-leaves describe-counts look-counts no-match image-answers image-described image-ships image-fits
some-records most-records is-node some-record next-whole next-link same-header same-records some-link nodes-are
runs-are
""".split()

WORD = re.compile(r"(?<![\w'-])(" + "|".join(sorted(map(re.escape, FIELDS), key=len, reverse=True)) + r")(?![\w'-])")
SPAN = re.compile(r"`[^`\n]+`")


def turn(text):
    return WORD.sub(lambda m: m.group(1).replace("-", "_"), text)


def rewrite(path, new):
    with open(path, encoding="utf-8") as f:
        text = f.read()
    if new(text) != text:
        with open(path, "w", encoding="utf-8") as f:
            f.write(new(text))


for folder, dirs, names in os.walk("."):
    dirs[:] = sorted(d for d in dirs if d not in (".git", "target") and not (d == "out" and "proofs" not in folder))
    for name in sorted(names):
        if name.endswith(".antt"):
            rewrite(os.path.join(folder, name), turn)
        elif name.endswith(".md") and name != "PORT.md":
            rewrite(os.path.join(folder, name), lambda text: SPAN.sub(lambda m: turn(m.group(0)), text))
