#!/usr/bin/env python3
"""tools/respell.py, run once at the top after the toolchain's port.py: spells this repository's own definitions as the new toolchain does.

- A definition in camel case gets snake case: keptMatch is kept_match. Types, facts, modules, functions of the code and strings keep their names.
- A definition or field of specs/ with a dash gets an underscore: adds-up is adds_up. A proof `f-spec` of the code's function f_g is f_g_spec.
- Two lemmas get another name, since they would fall together with a definition.
- Pages that name a definition say its new name; edits and counterexamples, which port.py does not turn, get its spelling too.
"""

import os
import re

SIGNATURE = re.compile(r"^\s*(?:unfoldable |abbrev |pub |private )*(?:record |data |ruleset )?([^\s:(){}=,.;λ]+)\s+(?::|\(|\{)")
# Lemmas that fall together with a definition of their own crate in its new spelling.
LEMMAS = {"set_below": "set_below-small", "too_large": "too_large-in_word"}
# What the scripts of the toolchain call the names of its libraries, for the texts that port.py leaves alone.
LIBRARY = {
    "getElem?": "get_elem?", "ofBits": "of_bits", "toBits": "to_bits", "isNan": "is_nan", "nanBits": "nan_bits",
    "_>>=_": "◌>>=◌", "_≡_": "◌≡◌", "_∙_": "◌∙◌", "_∷_": "◌∷◌", "_++_": "◌++◌", "_+_": "◌+◌", "_*_": "◌*◌", "_/_": "◌/◌", "_%_": "◌%◌", "_^_": "◌^◌", "_-_": "◌-◌",
    "_≤_": "◌≤◌", "_<_": "◌<◌", "_&&_": "◌&&◌", "_||_": "◌||◌",
}


def snake(name):
    return re.sub(r"(?<=[a-z0-9])([A-Z])", lambda m: "_" + m.group(1).lower(), name)


def read(path):
    with open(path, encoding="utf-8") as f:
        return f.read()


def write(path, text):
    with open(path, "w", encoding="utf-8") as f:
        f.write(text)


def files(*endings):
    for folder, dirs, names in os.walk("crates"):
        dirs[:] = sorted(d for d in dirs if d != "out")
        for name in sorted(names):
            if name.endswith(endings):
                yield os.path.join(folder, name)


def declared(path):
    return [m.group(1) for m in map(SIGNATURE.match, read(path).split("\n")) if m]


def names():
    """The new spelling of each name that gets one."""
    out = {}
    for path in files(".antt", ".counterexample", "Support"):
        for name in declared(path):
            if re.match(r"[a-z]\w*$", name) and snake(name) != name:
                out[name] = snake(name)
            elif "/specs/" in path and re.match(r"[a-z][a-z0-9]*(-[a-z0-9]+)+$", name):
                out[name] = name.replace("-", "_")
    for name in ("isIt", "mineAt", "partnerPosted", "tableAtEnd", "kindAt", "idsOf", "allBelow", "isAt", "openAt", "atPlace", "isRefused", "indexOf", "stateOf", "tableOf",
                 "withNext", "withHead", "kindOf", "rankOf", "headOf", "placeOf", "guardOf", "openIn", "nextAt", "rankAt", "bytesOf", "isEmpty", "isHeld", "linesFrom",
                 "listsOf", "namedBy", "numberAt", "numberIn", "pieceOf", "putAt", "tableAt", "andThen", "inWord", "firstAt", "inTurn", "wordOf", "wordAt", "wordBytes"):
        out[name] = snake(name)
    return out


def renamed(text, table):
    """The names of the table, whole. One in camel case may be a part of a name with dashes."""
    for part, edge in ((r"[\w?]", r"\w'"), (r"-", r"\w'-")):
        some = [n for n in sorted(table, key=len, reverse=True) if ("-" in n) == (part == "-")]
        if some:
            pattern = re.compile(rf"(?<![{edge}])(" + "|".join(map(re.escape, some)) + rf")(?![{edge}])")
            text = pattern.sub(lambda m: table[m.group(1)], text)
    return text


ATOM = r"(?:[\w'«][\w'«»?·-]*(?:\.[\w'-]+)*|\((?:[^()]|\((?:[^()]|\([^()]*\))*\))*\)(?:\.[\w'-]+)*)"
SPINE = re.compile(rf"((?:{ATOM} )*{ATOM}) \.(?=[\w«])(\w[\w'-]*)")
WORDS = {"in", "let", "elim", "as", "with", "where", "record", "unfolding", "rw", "at", "omega", "cc", "sym", "search", "simp", "absurd", "subst", "ap", "cond"}


def tight(text):
    """Projections as port.py writes them: `h .kind` is h.kind, `f x .place` is (f x).place, and parentheses round one alone go."""
    def spine(m):
        atoms = re.findall(ATOM, m.group(1))
        keep = 0
        for i, atom in enumerate(atoms):
            if atom in WORDS:
                keep = i + 1
        head, tail = atoms[:keep], atoms[keep:]
        of = tail[0] if len(tail) == 1 else "(" + " ".join(tail) + ")"
        return " ".join(head + [of]) + "." + m.group(2)

    old = None
    while old != text:
        old = text
        text = SPINE.sub(spine, text, count=1)
        text = re.sub(r"(?<![\w'])\(([\w'][\w'-]*(?:\.[\w'-]+)+)\)", r"\1", text)
        text = re.sub(rf"\((\({ATOM}(?: {ATOM})*\)(?:\.[\w'-]+)+)\)", r"\1", text)
    return text


def turned(text):
    """A text that port.py leaves alone, in the new spelling."""
    text = re.sub(r"Rattle·(\w+)·(specs|proofs)\.\2\.", r"Rattle.\1.\2.", text)
    text = re.sub(r"Rattle·(\w+)·(specs|proofs)\.", r"Rattle.\1.\2.", text)
    text = re.sub(r"Rattle·(\w+)\.", r"Rattle.\1.", text)
    text = text.replace("′", "'").replace("the-variants", "TheVariants")
    for old, new in LIBRARY.items():
        text = re.sub(r"(?<![\w'])" + re.escape(old) + r"(?![\w'])", new, text)
    return tight(text)


def main():
    table = names()
    for path in files(".antt", ".rt"):
        text = read(path)
        lemmas = {a: b for a, b in LEMMAS.items() if path.endswith(".antt")}
        new = renamed(renamed(text, lemmas), table)
        new = re.sub(r"(?<![\w'])(\+?[a-z][a-z0-9_]*(?:-[a-z0-9]+)*)-spec(?![\w'-])", lambda m: m.group(1).replace("-", "_") + "_spec", new) if path.endswith("Proof.antt") else new
        if new != text:
            write(path, new)
    for path in files(".edit", ".counterexample", "Support"):
        text = read(path)
        new = renamed(turned(text), table)
        if new != text:
            write(path, new)
    pages = ["README.md", "examples/README.md", "model/README.md", "model/bench/README.md", "model/compare/README.md"]
    pages += [os.path.join(folder, name) for folder, _, found in os.walk("docs") for name in found if name.endswith(".md")]
    for path in pages:
        if os.path.exists(path):
            text = read(path)
            new = re.sub(r"`[^`\n]+`", lambda m: renamed(m.group(0), table), text)
            if new != text:
                write(path, new)


main()
