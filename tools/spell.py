#!/usr/bin/env python3
"""Brings this repository's own definitions and lemmas to snake case, as `anyBelow` to `any_below`.

usage: python3 tools/spell.py [--list]     at the top of the repository, once, right behind port.py

It goes by file: a word turns where the file declares it, or imports it from a crate of this repository. Types, modules and constructors keep their names, and so do functions of
src/, strings, and whatever the library declares. In a function's own proof (proofs/F/) only what is imported from the repository turns, and fields of its records: the names of
goals are the checker's. --list prints what would turn and what falls together, and writes nothing.
"""
import collections
import glob
import os
import re
import sys

SPLIT = re.compile(r'([\s(){}.;,@"«»\[\]|]+)')
USE = re.compile(r"^(\s*(?:pub )?(?:ghost )?use )([^\s{}]+?)(?:\.\{([^}]*)\})?(?: as ([^\s;]+))?;?\s*$")
SIGN = re.compile(r"^\s*(?:(?:where|pub|abbrev|unfoldable)\s+)*([^\s(){}.;,@\"«»:]+)\s*(?:[({].*[)}])?\s*:(?:\s|$)")
HEAD = re.compile(r"^\s*(?:pub\s+)?(?:data|record|module)\s+([^\s(){}.;,@\"«»:]+)")
# names that would read as something else's
OTHERWISE = {}
KEPT = set()
# lemmas that port.py left with the name that a definition gets here: in one file, old name and new
IN_FILE = {
    "crates/script/proofs/ByteLaws": {"found_as": "found_by_sign"},
    "crates/script/proofs/found_by/": {"found_as": "found_by_sign"},
    "crates/tables/proofs/NeverMovesRefusedHolds": {"is_read": "read_of"},
}
# what specs/ declare: the dashes of these names go too, those of a lemma's name join its parts and stay
IN_SPECS = set()


def spelled(name):
    if name in OTHERWISE:
        return OTHERWISE[name]
    if name in KEPT or not name or not name[0].islower() or "·" in name:
        return name
    if "-" in name and name in IN_SPECS:
        name = name.replace("-", "_")
    name = name.replace("getD", "get_or")
    return re.sub(r"(?<=[a-z0-9'])([A-Z]+)(?![a-z]*[A-Z]{2})", lambda m: "_" + m.group(1).lower(), name)


def files():
    return sorted(glob.glob("crates/*/specs/**/*.antt", recursive=True) + glob.glob("crates/*/proofs/**/*.antt", recursive=True) + glob.glob("crates/*/src/**/*.rt", recursive=True))


def of_function(path):
    """whether a file is part of one function's proof"""
    parts = path.split("/")
    return parts[2] == "proofs" and len(parts) > 4


def listing(path, text, own_crates):
    """what a file imports: from this repository, and from elsewhere"""
    own, other = set(), set()
    for line in re.split(r"\n", re.sub(r"\{\n([^}]*)\}", lambda m: "{" + " ".join(m.group(1).split()) + "}", text)):
        m = USE.match(line)
        if not m or not m.group(3):
            continue
        where = m.group(2).split(".")
        mine = where[0] == "Rattle" and len(where) > 1 and where[1] in own_crates
        for item in m.group(3).split(","):
            words = item.replace("«", "").replace("»", "").split()
            if not words:
                continue
            (own if mine else other).add(words[0])
            if len(words) == 3:
                own.add(words[2]) if mine else other.add(words[2])
    return own, other


def declared(text):
    found = set()
    for line in text.split("\n"):
        line = line.split(" -- ")[0]
        if line.lstrip().startswith("--"):
            continue
        m = SIGN.match(line) or HEAD.match(line)
        if m:
            found.add(m.group(1))
    return found


def main():
    show = "--list" in sys.argv
    own_crates = set(os.listdir("crates"))
    texts = {p: open(p, encoding="utf-8").read() for p in files()}
    for p in texts:
        for begins, names in IN_FILE.items():
            if p.startswith(begins):
                for old, new in names.items():
                    texts[p] = re.sub(r"(?<![^\s(){}.;,])" + old + r"(?![^\s(){}.;,])", new, texts[p])
    everywhere = set()
    for p, t in texts.items():
        if p.endswith(".antt") and not of_function(p):
            everywhere |= declared(t)
            if p.split("/")[2] == "specs":
                IN_SPECS.update(declared(t))
    turned = collections.Counter()
    clashes = []
    for p, t in texts.items():
        own, other = listing(p, t, own_crates)
        if of_function(p):
            mine = {w for w in own if w in everywhere}
            local = {w for w in declared(t)}
            goals = set(re.findall(r"(?:goal|tie)\.(?:Need-)?([^\s(){};,]+)", t))
            mine |= {w for w in local if w not in goals and re.search(r"[A-Z]", w) and w[0].islower()}
        elif p.endswith(".rt"):
            mine = {w for w in own if w in everywhere}
        else:
            mine = (declared(t) | own | everywhere) - other
        words = set(SPLIT.split(t))
        table = {w: spelled(w) for w in mine if spelled(w) != w and w in words}
        back = collections.defaultdict(set)
        for w, s in table.items():
            back[s].add(w)
        for s, ws in back.items():
            if len(ws) > 1 or (s in words):
                clashes.append((p, s, sorted(ws), s in words))
        out, i = [], 0
        lines = t.split("\n")
        for k, line in enumerate(lines):
            m = re.match(r"^(\s*(?:pub )?(?:ghost )?use )(Rattle\.(\w+)|[^\s.{]+)", line)
            foreign = bool(m) and not (m.group(3) in own_crates)
            comment = line.lstrip().startswith(("--", "//"))
            if foreign:
                out.append(line)
                continue
            parts = SPLIT.split(line)
            quoted = False
            for j, w in enumerate(parts):
                if j % 2:
                    if w.count('"') % 2:
                        quoted = not quoted
                    continue
                if quoted or w not in table:
                    # a name between backticks in a comment
                    if comment and w.startswith("`") and w.strip("`") in table:
                        parts[j] = w.replace(w.strip("`"), table[w.strip("`")])
                    continue
                if comment and "-" in w:
                    continue
                turned[w] += 1
                parts[j] = table[w]
            out.append("".join(parts))
        # an import under the name it has by now
        new = re.sub(r"(?<![\w'])([^\s{},]+) as \1(?![\w'-])", r"\1", "\n".join(out))
        if not show and new != open(p, encoding="utf-8").read():
            with open(p, "w", encoding="utf-8") as f:
                f.write(new)
    if show:
        for w, n in sorted(turned.items()):
            print(f"{w}\t{spelled(w)}\t{n}")
    print("clash:" if clashes else "no clash")
    for c in clashes:
        print("clash:", *c)


main()
