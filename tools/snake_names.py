#!/usr/bin/env python3
"""Spells the repository's own names in antt as Rattle does today: words in snake case.

usage: tools/snake_names.py     at the top of the repository, once, after port.py

A name in camel case gets underscores; so does a definition or a field of specs/ that was joined by dashes. Lemmas keep their dashes. Edits in
must-fail/ are turned like the text that they change. Names in Rattle code and strings have neither form, and stay.
"""

import os
import re

TOKEN = re.compile(r"(?<![\w'’·-])[A-Za-zℓκμ][\w'-]*")
SIGNATURE = re.compile(r"^ *(?:abbrev |unfoldable )?(?:pub )?([\w']+(?:-[\w']+)+)(?: \{[^}]*\})* :", re.M)
# A lemma and a definition would fall together: the lemma gets its ending.
LEMMAS = {"same_place": "same_place_lem", "seen_clean": "seen_clean_lem", "same-place": "same_place_lem", "seen-clean": "seen_clean_lem"}


def files():
    for folder, folders, names in os.walk("crates"):
        folders[:] = sorted(f for f in folders if f != "out")
        for name in sorted(names):
            if name.endswith((".rt", ".antt", ".edit")):
                yield os.path.join(folder, name)


def dashed():
    """The definitions and fields of specs/ that are joined by dashes."""
    found = set()
    for path in files():
        if path.endswith(".antt") and path.split(os.sep)[2] == "specs":
            with open(path, encoding="utf-8") as f:
                found |= set(SIGNATURE.findall(f.read()))
    return found


def snake(word):
    return re.sub(r"(?<=[a-z0-9])[A-Z]", lambda m: "_" + m.group(0).lower(), word)


def main():
    fields = dashed()
    lemmas = {w for w in LEMMAS if any(re.search(rf"^ *(?:pub )?{w} :", open(p, encoding="utf-8").read(), re.M) for p in files() if "/proofs/" in p)}

    def turned(m, proofs):
        word = m.group(0)
        if proofs and word in lemmas:
            return LEMMAS[word]
        if word in fields:
            return word.replace("-", "_")
        if re.match(r"[a-z]", word) and re.search(r"[a-z0-9][A-Z]", word) and not re.match(r"0?x[0-9A-F]", word):
            return snake(word)
        return word

    for path in files():
        with open(path, encoding="utf-8") as f:
            text = f.read()
        proofs = "/proofs/" in path
        new = TOKEN.sub(lambda m: turned(m, proofs), text).replace("′", "'")
        if new != text:
            with open(path, "w", encoding="utf-8") as f:
                f.write(new)


if __name__ == "__main__":
    main()
