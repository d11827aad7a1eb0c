#!/usr/bin/env python3
"""Brings the repository's own definitions and lemmas to today's spelling: snake case for all but types and modules.

usage: tools/respell.py [--list]      at the top, once, right after port.py; --list prints the names and changes nothing

A name is respelled if a file of specs/ or proofs/ declares it: `everyBelow` becomes `every_below`, `every-at` `every_at`.
Where a definition and a law would fall together, the law's name gets `_lem`; SECOND has the other clashes.
Names that begin with a capital, names of the library, goals (`returns-2`) and all of Rust's names stay.
It rewrites specs/, proofs/, src/, must-fail/ and, between backticks, the documents. It goes by words and knows no scopes.
"""

import re
import sys
from pathlib import Path

TOP = Path(__file__).resolve().parent.parent
WORD = re.compile(r"[A-Za-zℕ_][\w'ℕ₀-₉-]*")
MARKS = r"(?:abbrev |unfoldable |pub |private )*"
# Each line that begins `name : ` or `name name : `, at any depth.
SIGNATURE = re.compile(rf"^\s*({MARKS})((?:[^\s(){{}}:.,=λ∷]+ )+): ")
KEYWORDS = {"use", "let", "in", "where", "module", "data", "record", "open", "unfolding", "elim", "constructor", "field"}
SECOND = {"bit-and": "bit_of_and", "bit-or": "bit_of_or", "bit-xor": "bit_of_xor"}


def snake(name):
    name = re.sub(r"([a-z0-9ℕ'])([A-Z])", lambda found: f"{found[1]}_{found[2].lower()}", name)
    return name.replace("-", "_")


def sources():
    return sorted([*TOP.glob("crates/*/specs/**/*.antt"), *TOP.glob("crates/*/proofs/**/*.antt")])


def declared():
    """Each name that specs/ or proofs/ declare, but for the goals of functions, which Rattle names."""
    names = set()
    for path in sources():
        text = path.read_text()
        for line in text.split("\n"):
            found = SIGNATURE.match(line)
            if not found or line.lstrip().startswith("--"):
                continue
            words = found[2].split()
            if KEYWORDS & set(words) or re.match(r"(tie|goal)\.", line[found.end():]):
                continue
            names |= {word for word in words if WORD.fullmatch(word) and not word[0].isupper()
                      and not word.endswith("-spec") and f"Need-{word}" not in text}
    return names


def library():
    """Names that some file takes from elsewhere than this repository."""
    own = "|".join(path.name for path in (TOP / "crates").iterdir())
    taken = set()
    for path in [*sources(), *TOP.glob("crates/*/src/**/*.rt")]:
        for where, names in re.findall(r"^(?:ghost )?use ([^\s{]+)\.\{([^}]*)\}", path.read_text(), re.M):
            if not re.match(rf"Rattle\.({own})\.", where):
                taken |= {name.split(" as ")[0].strip() for name in names.split(",")}
    return taken


def weight(name):
    """Who keeps a name that two want: what was `camelCase`, a definition, then what port.py turned, then `a-law`."""
    return 0 if any(letter.isupper() for letter in name) else 2 if "-" in name else 1


def renaming(names, taken):
    goes_to, turned = {}, {}
    for name in sorted(names - taken):
        goes_to.setdefault(SECOND.get(name, snake(name)), []).append(name)
    for new, old in goes_to.items():
        first, *others = sorted(old, key=weight)
        turned[first] = new
        for other in others:
            turned[other] = f"{new}_lem"
        clash = len(old) > 2 or len({weight(name) for name in old}) < len(old) or new in taken or f"{new}_lem" in names
        if clash and "--list" in sys.argv:
            print("falls together:", new, old, file=sys.stderr)
    return {name: new for name, new in turned.items() if name != new}


def main():
    names = declared()
    turned = renaming(names, library())
    if "--list" in sys.argv:
        print("\n".join(f"{name} {new}" for name, new in turned.items()))
        return
    after = {turned.get(name, name) for name in names}

    def swap(found, text, code):
        """The word's new spelling. One without capital or dash is a law only where it is no part of a path, and never in code."""
        word = found[0]
        if word in turned and weight(word) == 1:
            beside = text[max(found.start() - 1, 0):found.start()] + text[found.end():found.end() + 1]
            return word if code or "." in beside else turned[word]
        return turned.get(word, word)

    def cite(found):
        """The same for a word of a document or an edit, where port.py has turned nothing."""
        word, new = found[0], snake(found[0])
        return turned.get(word, new if weight(word) != 1 and not word[0].isupper() and new in after else word)

    for path in [*sources(), *TOP.glob("crates/*/src/**/*.rt")]:
        text = path.read_text()
        new = WORD.sub(lambda found: swap(found, text, path.suffix == ".rt"), text)
        if new != text:
            path.write_text(new)
    for path in [*TOP.glob("crates/*/must-fail/*.edit"), *TOP.glob("docs/*.md"), *TOP.glob("*.md"), *TOP.glob("*/*.md")]:
        text = path.read_text()
        if path.suffix == ".md":
            new = re.sub(r"`[^`\n]*`", lambda found: WORD.sub(cite, found[0]), text)
        else:
            new = WORD.sub(cite, text)
        if new != text:
            path.write_text(new)


if __name__ == "__main__":
    main()
