#!/usr/bin/env python3
"""Turns the repository's own names to today's spelling, once, right behind port.py: python3 tools/spelling.py [--list]

Words of specs/ and proofs/ in camel case go to snake case; a dash in a lemma's name stays only between names of definitions
(length-splice) and is an underscore before a plain word (be_same). Types, modules, functions of src/ and names that Rattle
makes keep theirs. Edits of must-fail/ follow, so that their text still fits. --list prints the names and changes nothing.
"""
import glob
import re
import sys

ANTT = sorted(glob.glob("crates/*/specs/**/*.antt", recursive=True) + glob.glob("crates/*/proofs/**/*.antt", recursive=True))
RUST = sorted(glob.glob("crates/*/src/**/*.rt", recursive=True))
EDITS = sorted(glob.glob("crates/*/must-fail/*.edit"))

HEAD = r"(\s*)((?:pub |abbrev |unfoldable )*)"
DECLARED = re.compile(HEAD + r"([^\s:(){}\[\].,;λ]+)((?: [^\s:(){}\[\].,;λ]+)*) :(?=\s)(.*)$")
GENERATED = re.compile(r"\s*(tie|goal)\.|\s*\{M : Type 1\} → statement M|.*statement M$")
# Names that would fall together with a definition's: a lemma beside a definition of its name ends in _lem.
APART = {
    "goes_on": "goes_on_lem",
    "held_by": "held_by_lem",
    "no_blocks": "no_blocks_lem",
    "wrong_size": "wrong_size_lem",
    "last-coded": "last_coded_lem",
    "to-group": "to_group_lem",
    "routes-beside": "routes_beside_lem",
    "link-size": "link_size_lem",
    "standard-in": "standard_in_lem",
    "interface-bytes": "interface_bytes_lem",
    "route-bytes": "route_bytes_lem",
    "byTests": "link_by_tests",
}
# the lists that lemmas of std name
STD = "length take drop map append set reverse paste sum".split()


def words(path):
    with open(path, encoding="utf-8") as f:
        return f.read()


def snake(name):
    return re.sub(r"(?<=[a-z0-9])(?=[A-Z])|(?<=[A-Z])(?=[A-Z][a-z])", "_", name).lower()


def declared():
    """The names that the files declare, and those of them that are words of specs/."""
    names, defined = {}, set()
    for path in ANTT:
        for line in words(path).split("\n"):
            m = DECLARED.match(line)
            if not m:
                continue
            for n in [m.group(3), *m.group(4).split()]:
                own = not GENERATED.match(m.group(5)) or n.endswith("-spec")
                if own:
                    names.setdefault(n, path)
                if "/specs/" in path and m.group(2).split() and m.group(2).split() != ["pub"] and "Type 0" not in m.group(5):
                    defined.add(n)
        for a in re.findall(r"(?m)^(?:pub )?use \S+ as ([a-z]\S*)$", words(path)):
            names.setdefault(a, path)
    return names, defined


def functions():
    found = set()
    for path in RUST:
        found |= set(re.findall(r"\bfn (\w+)", words(path)))
    return found


def parts(pieces, known):
    """The fewest names that the pieces join to, or None."""
    if "_".join(pieces) in known:
        return ["_".join(pieces)]
    best = None
    for k in range(1, len(pieces)):
        head = "_".join(pieces[:k])
        rest = parts(pieces[k:], known) if head in known else None
        if rest and (best is None or len(rest) + 1 < len(best)):
            best = [head, *rest]
    return best


def respelled(names, defined):
    known = {snake(d) for d in defined} | functions() | set(STD)
    table = {}
    for n in names:
        if not re.match(r"^\+?[a-zα-ω][\w'₀-₉-]*$", n):
            continue
        if "-" in n:
            pieces = snake(n.lstrip("+")).split("-")
            if pieces[-1] in ("spec", "determined"):
                table[n] = "_".join(pieces)
                continue
            split = parts(pieces, known)
            new = "-".join(split) if split and len(split) > 1 else "_".join(pieces)
        else:
            new = snake(n) if re.search("[A-Z]", n) else n
        if new != n:
            table[n] = new
    return table | APART


def together(names, table):
    """New names that two old ones come to, or that stood already."""
    came = {}
    for n in names:
        came.setdefault(table.get(n, n), []).append(n)
    return {new: olds for new, olds in came.items() if len(olds) > 1}


TOKEN = re.compile(r"(?<![\w'₀-₉·-])(\+?[a-zα-ω][\w'₀-₉]*(?:-[\w'₀-₉]+)*)(?![\w'₀-₉·-])")
COMMENT = re.compile(r"\s*(--|//|#)")
MADE = re.compile(r"(?:tie|goal)\.$")


# an alias of a module is the function's name, also where a lemma of that name is told apart
ALIAS = re.compile(r"(?m)^(?:pub )?use Rattle\.\S+ as ([a-z]\w*(?:-\w+)*)$")


def turned(text, table):
    def one(m):
        n = m.group(1)
        if n not in table or MADE.search(text[max(0, m.start() - 5) : m.start()]):
            return n
        line = text[text.rfind("\n", 0, m.start()) + 1 : m.start()]
        if "-" in n and COMMENT.match(line) and not line.endswith("`"):
            return n  # a hyphen of plain words
        return table[n]

    return TOKEN.sub(one, text)


def main():
    names, defined = declared()
    table = respelled(names, defined)
    clash = together(names, table)
    if "--list" in sys.argv:
        for n in sorted(table):
            print(n, table[n])
        for new, olds in sorted(clash.items()):
            print("together:", new, *olds)
        return
    for path in ANTT + RUST + EDITS:
        old = words(path)
        own = {a: a.replace("-", "_") for a in ALIAS.findall(old)}
        new = turned(old, table | own)
        if new != old:
            with open(path, "w", encoding="utf-8") as f:
                f.write(new)


main()
