#!/usr/bin/env python3
"""Spells the repository's own names as today's Rattle does, right after the kit's port.py and once.

usage: python3 tools/port_names.py [--check]     at the top of the repository

Three rules, over the .antt files, the ghost parts of .rt files, the must-fail edits, and the code spans of pages:
  1. a part of a name in lower camel case is turned to snake case (isPrefix-trans: is_prefix-trans);
     getD, the older library's word, is get_or; valueOr is value_or like any other;
  2. in a name that a file of specs/ or of proofs/ declares, a plain word is joined by '_' and a name by '-'
     (is_prefix-trans: is_prefix_trans, length-lcp stays); PLAIN has the plain words, and a word that is itself
     the name of a definition counts as a name;
  3. KEPT has the names that stay, OTHER and EXACT those that get another spelling than the rules give, since they
     would fall together with a name that stands beside them.
Functions, fields and types of the source, exported names, strings, inputs and outputs keep their names.
It says which new names stand in a file beforehand ('falls together'); with --check it writes nothing.
"""

import os
import re
import sys

PLAIN = set("""
about above absurd accepted add added after again agree ahead alike all alone along among any apart around as aside
assoc at away back bare before behind below beside between bit bits both branch by bytes cancel cast cell cells clear
close cold comm cons cut damaged deep done double down each eight either empty end ends entry equal even ever exact
exactly exchange ext fall falls far few field fields first five fit fits flip follows found four free fresh from full
given gives goes gone grown half held high hold holds id if imp in inj inside into irrefl is it its join kept key keys
last late laws least left length less level low made many mem met mid middle missing mono more most move name narrow
near never new next no node nodes none not nothing now odd of off ok old on once one ones only open order other out
outside over own pair parent part parts past path place places plain pos quiet ran refl rest rests right root run same
says second seen self short shortest side sides single small some sorted sound spare split start step steps stored sum
sym ten tested than then there three through to together told top total trans true twice two unfold unique unit up
used wait way whole wide within without word words wrong yes zero false
0 1 2 3 4 5 6 7 8 9 10 16 24 32 64 128 129
""".split())

# plain words that are plain though a definition has their name too
ALWAYS = {"left", "right", "full", "short", "next", "same"}
KEPT = {"M1-to-M12"}
OTHER = {}
# parts that no declaration shows in a form that is read here, as a name that a `use` gives
EXTRA = "columnOf scaledOf outOn keyIn standsOf noRuns besideOf aliveOf inRange".split()
EXACT = {"inLeft": "used_in_left", "inRight": "used_in_right"}

HERE = os.getcwd()
TOKEN = r"[^\s(){}.;,@\"«»\[\]|`'‘’:/\\=?!*&<>#~^%$+]+'*"
DECL = re.compile(r"^(\s*)((?:(?:abbrev|unfoldable|pub|data|record|ghost)\s+)*)([^\s(){}:.;,@\"«»|=]+)((?:\s+[({][^\n]*?)?)\s+:\s")
CTOR = re.compile(r"^\s+(?:pub\s+)?([^\s(){}:.;,@\"«»|=]+)\s+:\s")


def files(top, ends):
    for folder, dirs, names in os.walk(top):
        made = ("target", ".git") if "proofs" in folder else ("out", "target", ".git")
        dirs[:] = sorted(d for d in dirs if d not in made)
        for n in sorted(names):
            if n.endswith(ends):
                yield os.path.join(folder, n)


def read(p):
    with open(p, encoding="utf-8") as f:
        return f.read()


def code(text):
    return "\n".join(l for l in text.split("\n") if not l.lstrip().startswith("--"))


def is_camel(part):
    return bool(re.match(r"^[a-z_]\w*?[A-Z]", part)) and "_" not in part


def snake(part):
    if part == "getD":
        return "get_or"
    if part in EXACT:
        return EXACT[part]
    s = re.sub(r"(?<=[a-z0-9])([A-Z])", r"_\1", part)
    return s.lower()


def declared():
    """Names that specs/ and proofs/ declare (functions' own proofs aside), and all camel parts of declared names."""
    own, parts, defs = set(), set(), set()
    for p in files("crates", (".antt",)):
        inner = os.path.basename(p) == "Proof.antt"
        for line in code(read(p)).split("\n"):
            m = DECL.match(line + " ")
            if not m or line.lstrip().startswith(("use ", "let ", "in ", "module ", "λ", "|")):
                continue
            name = m.group(3)
            for part in name.split("-"):
                if is_camel(part):
                    parts.add(part)
            if not inner:
                own.add(name)
                if "/specs/" in p and "-" not in name and re.search("abbrev|unfoldable|data|record", m.group(2)):
                    defs.add(name)
    return own, parts, defs


def main():
    check = "--check" in sys.argv
    own, parts, defs = declared()
    camel = {p: snake(p) for p in parts}
    camel.update({p: snake(p) for p in EXTRA})
    camel.update({"getD": "get_or", "at_Side": "at_side", "at_Fork": "at_fork", "not_T": "not-T"})

    def turn_parts(word):
        return "-".join(camel.get(p, p) for p in word.split("-"))

    names_now = {turn_parts(d) for d in defs}

    def whole(word):
        """The new spelling of a declared name."""
        if word in KEPT:
            return word
        new = turn_parts(word)
        ps = new.split("-")
        out = ps[0]
        for p in ps[1:]:
            plain = p in PLAIN and (p in ALWAYS or p not in names_now)
            out += ("_" if plain and out else "-") + p
        return OTHER.get(out, out)

    table = {w: whole(w) for w in own if whole(w) != w}
    if check:
        print("plain words that are definitions:", sorted(PLAIN & names_now))
    # (where two names would get one spelling, and where one is there already, dashes stay)
    count = {}
    for w in own:
        count[whole(w)] = count.get(whole(w), 0) + 1
    table = {w: (b if count[b] == 1 else turn_parts(w)) for w, b in table.items()}
    table = {w: b for w, b in table.items() if w != b}
    seen = {}
    for a, b in table.items():
        seen.setdefault(b, []).append(a)
    for b, xs in sorted(seen.items()):
        if len(xs) > 1 or b in own:
            print("fall together:", b, xs, "(declared)" if b in own else "")

    tok = re.compile(TOKEN)

    def turn(m):
        w = m.group(0)
        if w in table:
            return table[w]
        return turn_parts(w)

    clash = set()
    for p in files("crates", (".antt", ".rt", ".edit")):
        text = read(p)
        before = set(tok.findall(code(text)))
        new = tok.sub(turn, text)
        for w in before:
            n = turn(re.match(".*", w, re.S))
            if n != w and n in before:
                clash.add((p, w, n))
        if new != text and not check:
            with open(p, "w", encoding="utf-8") as f:
                f.write(new)
    for c in sorted(clash):
        print("falls together:", *c)

    span = re.compile(r"`[^`\n]+`")
    for p in list(files(".", (".md",))):
        text = read(p)
        new = span.sub(lambda m: tok.sub(turn, m.group(0)), text)
        if new != text and not check:
            with open(p, "w", encoding="utf-8") as f:
                f.write(new)
    print(len(table), "names and", len(camel), "parts turned")


main()
