"""The bench tree for others than the program: as a file, as a C header, and compared with where it stands besides. The tree is `bench` of
trees.py, its calls are the group "The worked table" of walks.py."""

import re

from image import field
from listed import FLAGS, RESOLVE, in_words

C_HEAD = """\
/*
 * The bench tree, a small table image:
 *
 *   mount 0                          mount 1, on (0,7)
 *   0 /                              8 /
 *   `-- 1 lab                        `-- 9 run
 *       |-- 2 cal
 *       |   |-- 3 tare
 *       |   |-- 4 up -> ../..
 *       |   |-- 5 abs -> /lab/cal/tare
 *       |   |-- 6 loop -> loop
 *       |   |-- 10 fd, a magic link to (0,3)
 *       |   `-- 11 t -> tare/
 *       `-- 7 pool
 *
 * Written by tests/cases/write.
 */
#ifndef BENCH_TREE_H
#define BENCH_TREE_H

#include <stdint.h>

/* clang-format off */
static const uint8_t bench_tree[] = {
"""
C_TAIL = """\
};
/* clang-format on */

#endif
"""


class Parts:
    """The records of an image, each with its bytes."""

    def __init__(self, image):
        self.image = image
        nodes, mounts, entries = (field(image, at, 2) for at in (4, 6, 8))
        self.nodes = self._records(20, 12, nodes, [(0, 2), (2, 2), (4, 4), (8, 4)])
        self.mounts = self._records(20 + 12 * nodes, 8, mounts, [(0, 2), (2, 2), (4, 2)])
        self.entries = self._records(20 + 12 * nodes + 8 * mounts, 8, entries, [(0, 4), (4, 2), (6, 2)])
        self.text = image[20 + 12 * nodes + 8 * mounts + 8 * entries :]

    def _records(self, start, width, count, layout):
        records = [self.image[at : at + width] for at in range(start, start + width * count, width)]
        return [(record, [field(record, at, size) for at, size in layout]) for record in records]

    def part(self, at, length):
        return self.text[at : at + length].decode()

    def owner(self, entry):
        """The directory that an entry stands in."""
        for number, (_, (kind, _, first, count)) in enumerate(self.nodes):
            if kind == 1 and first <= entry < first + count:
                return number

    def about_nodes(self):
        names = {node: self.part(at, length) for _, (at, length, node) in self.entries}
        for number, (_, (kind, parent, first, count)) in enumerate(self.nodes):
            top = "top" if number == 0 else "second top"
            named = f'{number} "{names[number]}"' if number in names else f"{number} {top}"
            yield named + ": " + {
                1: f"directory, parent {parent}",
                2: "file",
                3: f"link to {self.part(first, count)}",
                4: f"magic link to ({first},{count})",
            }[kind]

    def about_mounts(self):
        for number, (_, (root, parent, point)) in enumerate(self.mounts):
            yield f"{number}: root {root}" + (f", on ({parent},{point})" if number else "")

    def about_entries(self):
        for number, (_, (at, length, _)) in enumerate(self.entries):
            yield f'{number}: "{self.part(at, length)}" in {self.owner(number)}'

    def meaning(self):
        """What the records say, wherever in the text their names and bodies stand."""
        nodes = [(kind, parent, self.part(first, count) if kind == 3 else (first, count)) for _, (kind, parent, first, count) in self.nodes]
        return nodes, [fields for _, fields in self.mounts], [(self.part(at, length), node) for _, (at, length, node) in self.entries]

    def texts(self):
        """The text, cut where names and bodies begin."""
        starts = {at for _, (at, _, _) in self.entries} | {first for _, (kind, _, first, _) in self.nodes if kind == 3}
        bounds = sorted(starts | {0, len(self.text)})
        return [self.text[start:end].decode() for start, end in zip(bounds, bounds[1:])]


def _lines(records, about):
    """Records as lines of numbers, their comments in one column."""
    numbers = [", ".join(str(byte) for byte in record) + "," for record, _ in records]
    width = max(map(len, numbers))
    return "".join(f"    {line:{width}} /* {words} */\n" for line, words in zip(numbers, about))


def c_header(image):
    """The image as a C array, a record in each line."""
    parts = Parts(image)
    text = C_HEAD + "    'T', 'O', 'C', '1',\n"
    text += "    /* Counts of nodes, mounts and entries, zero; lengths of the text and of all. */\n"
    for start, end in ((4, 12), (12, 20)):
        text += "    " + ", ".join(str(byte) for byte in image[start:end]) + ",\n"
    text += "    /* Nodes: kind, parent, first, count. */\n" + _lines(parts.nodes, parts.about_nodes())
    text += "    /* Mounts: root, parent mount, mount point, zero. */\n" + _lines(parts.mounts, parts.about_mounts())
    text += "    /* Entries: place and length of the name, node. */\n" + _lines(parts.entries, parts.about_entries())
    text += "    /* Text. */\n"
    for words in parts.texts():
        text += "    " + ", ".join(f"'{letter}'" for letter in words) + ",\n"
    return text + C_TAIL


def _call(path, mark, words, answer):
    """A call as it is compared: the path, what is set, and the answer in the words of docs/CASES.md."""
    return path, mark, frozenset(words), answer


def calls(cases):
    """The worked table."""
    for case in cases:
        flags, resolve = field(case.how, 0, 8), field(case.how, 16, 8)
        words = [name for bit, name in FLAGS.items() if flags & bit] + [name for bit, name in RESOLVE.items() if resolve & bit]
        yield _call(case.path.decode(), case.mark, words, in_words(case))


def rules_calls(text):
    """The calls of RULES 13.4."""
    table = text.partition("**13.4**")[2].partition("\n|---")[2].partition("\n\n")[0]
    for path, rest, answer in re.findall(r"^\|[^|]*\| `([^`]*)`([^|]*) \| ([^|]*) \|$", table, re.M):
        yield _call(path, "marked" in rest, re.findall(r"[A-Z_]{4,}", rest), answer)


def rust_calls(text):
    """The calls of bindings/rust, its rows."""
    sets = {"UNFOLLOWED": "Flags::PATH Flags::NOFOLLOW"}
    for path, answer, rest in re.findall(r'^    row\("[^"]*", "([^"]*)", (\w+\([^()]*\))\)(.*),$', text, re.M):
        rest = re.sub("|".join(sets), lambda found: sets[found[0]], rest)
        words = re.findall(r"Resolve::(\w+)", rest) + ["O_" + name for name in re.findall(r"Flags::(\w+)", rest)]
        numbers = re.findall(r"\d+", answer)
        errno = re.search(r"Errno::(\w+)", answer)
        place = errno[1] if errno else f"({numbers[0]},{numbers[1]})"
        yield _call(path, ".marked()" in rest, words, f"{place}; {','.join(numbers[-2:])}")


def rust_image(text, folder):
    """The bytes of bindings/rust's image: a list of them, or a file that is included."""
    included = re.search(r'IMAGE: .*include_bytes!\("([^"]+)"\)', text)
    if included:
        return (folder / included[1]).read_bytes()
    listed = re.search(r"IMAGE: [^=]*= &\[\n(.*?)^\];", text, re.M | re.S)
    words = re.findall(r"b'(.)'|(\d+)", re.sub(r"//.*", "", listed[1])) if listed else []
    return bytes(ord(letter) if letter else int(number) for letter, number in words)


def proofs_calls(text):
    """The calls of the theorem in model/proofs."""
    table = text.partition("\nworked_table =\n")[2].partition("[]")[0]
    for kind, path, rest, answer in re.findall(r'(call|marked_call) "([^"]*)" (.*) \(((?:at|error) [^()]*)\)', table):
        words = re.findall(r"[A-Z][A-Z_]+", rest)
        first, *numbers = answer.split()[1:]
        place = f"({first},{numbers[0]})" if answer.startswith("at") else first.upper()
        yield _call(path, kind == "marked_call", words, f"{place}; {','.join(numbers[-2:])}")


def proofs_image(text, name="bench"):
    """The bytes of the theorem's image, which has its text in another order."""
    told = re.search(rf"^{name} =(.*?)\n\n", text, re.M | re.S)
    image = b""
    for digits, letters, part in re.findall(r'hex "([^"]*)"|ascii "([^"]*)"|\b(bench_\w+)', told[1] if told else ""):
        image += proofs_image(text, part) if part else bytes.fromhex(digits) + letters.encode()
    return image


def compared(root, image, cases):
    """Where the bench tree stands besides: a name, and whether it is there as it is here."""
    rules = (root / "docs/RULES.md").read_text()
    rust = root / "bindings/rust/src/bench_tree.rs"
    proofs = (root / "crates/model/proofs/BenchTree.antt").read_text()
    worked = list(calls(cases))
    return {
        "the calls of docs/RULES.md, 13.4": list(rules_calls(rules)) == worked,
        "the calls of crates/model/proofs/BenchTree.antt": list(proofs_calls(proofs)) == worked,
        "the image of crates/model/proofs/BenchTree.antt": Parts(proofs_image(proofs)).meaning() == Parts(image).meaning(),
        "the calls of bindings/rust/src/bench_tree.rs": list(rust_calls(rust.read_text())) == worked,
        "the image of bindings/rust/src/bench_tree.rs": rust_image(rust.read_text(), rust.parent) == image,
    }
