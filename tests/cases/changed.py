"""The bench tree with one field, or a few bytes of its text, changed: each rule broken in a table that has every kind of record."""

import trees
from image import counts, entry, field, mount, node
from listed import *

BENCH = trees.bench()
TEXT = 20 + 12 * 12 + 2 * 8 + 10 * 8


def changed(kind, change, rows):
    """A case for each row: record, field, value, and the record that is told; None if the table is accepted."""
    rule = {"node": 4, "entry": 5, "mount": 6, "magic": 7}[kind]
    for record, name, value, told in rows:
        owner = "node" if kind == "magic" else kind
        answer = ACCEPTED if told is None else broken(rule, told)
        case = f"changed-{owner}-{record}-{name}-{value}"
        check(case, change(BENCH, record, **{name: value}), answer, f"`bench`, {owner} {record}: {name} {value}")


def texts(kind, where, rows):
    """A case for each row: record, what is written over the beginning of its text, and the record that is told."""
    rule = {"node": 4, "entry": 5}[kind]
    for record, text, told in rows:
        at = TEXT + where(record)
        shown = text.decode().replace("\0", "\\0")
        letters = "-".join({"\0": "zero", "/": "slash", ".": "dot"}.get(letter, letter) for letter in text.decode())
        image = BENCH[:at] + text + BENCH[at + len(text) :]
        about = "body" if kind == "node" else "name"
        case = f"changed-{kind}-{record}-{about}-{letters}"
        check(case, image, broken(rule, told), f"`bench`, {kind} {record}: the {about} begins with `{shown}`")


# ---------------------------------------------------------------------------------------------------------------------------------
group("The bench tree, changed in one place", "Entries: 0 lab; 1 cal, 2 pool; 3 abs, 4 fd, 5 loop, 6 t, 7 tare, 8 up; 9 run.")
says(
    "4.1, 4.2, 4.3",
    "1. Image length 20 to 65,536. 2. Signature and zero field. 3. N 1 to 4,096, M 1 to 256, E 0 to 4,096; total length = 20 + 12N + 8M + "
    "8E + T = image length.",
)
check("changed-nothing", BENCH, ACCEPTED, "`bench` as it is")
check("changed-first-19", BENCH[:19], broken(1), "the first 19 bytes of `bench`")
check("changed-one-less", BENCH[:-1], broken(3), "`bench` without its last byte")
check("changed-one-more", BENCH + b"\0", broken(3), "`bench` and a zero byte")
for name, value in [
    ("nodes", 0), ("nodes", 0x77), ("nodes", 0x1001), ("mounts", 0x77), ("mounts", 0x101), ("entries", 11), ("entries", 0x77),
    ("text", 0x77), ("text", 2**32 - 1), ("total", 0x100), ("total", 0x177), ("total", 0x1013C),
]:
    check(f"changed-header-{name}-{value}", counts(BENCH, **{name: value}), broken(3), f"`bench`, the header: {name} {value}")

says(
    "4.4",
    "4. Nodes: kind 1 to 4. A directory's parent is a directory numbered no higher than itself ..; its first is the sum of earlier "
    "directories' counts. These counts sum to E (else record N). Other kinds: parent 0. File: first and count 0. Symbolic link: body inside "
    "the text, 1 to 4,095 bytes, no zero byte.",
)
changed("node", node, [
    (0, "kind", 0, 0), (0, "kind", 5, 0), (0, "kind", 0x101, 0), (3, "kind", 0, 3), (3, "kind", 5, 3), (3, "kind", 0x102, 3),
    (11, "kind", 0, 11), (11, "kind", 5, 11),
    (0, "parent", 1, 0), (1, "parent", 2, 1), (2, "parent", 3, 2), (8, "parent", 3, 8),
    (0, "first", 1, 0), (2, "first", 4, 2), (7, "first", 0, 7), (8, "first", 65536, 8),
    (0, "count", 0, 1), (2, "count", 0xFF000006, 7), (8, "count", 0, 12), (8, "count", 2, 12), (8, "count", 2**31, 12),
    (3, "parent", 1, 3), (4, "parent", 1, 4), (10, "parent", 1, 10),
    (3, "first", 1, 3), (9, "count", 1, 9),
    (4, "first", 2**32 - 1, 4), (11, "first", 2**32 - 1, 11),
    (4, "count", 0, 4), (4, "count", 4096, 4), (11, "count", 4096, 11),
])
texts("node", lambda record: field(BENCH, 20 + 12 * record + 4, 4), [(5, b"\0", 5), (11, b"\0", 11)])

says(
    "4.5",
    '5. Entries: name inside the text, 1 to 255 bytes, no zero byte or "/", not "." or ".."; node below N; names strictly ascending bytewise '
    "within a directory. An entry that names a directory stands in that directory's parent, and its node number is above the parent's.",
)
changed("entry", entry, [
    (0, "offset", 2**32 - 1, 0), (4, "offset", 2**32 - 1, 4), (9, "offset", 2**32 - 1, 9),
    (0, "length", 0, 0), (0, "length", 256, 0), (4, "length", 0, 4), (5, "length", 260, 5), (7, "length", 1, 7), (9, "length", 0, 9),
    (9, "length", 65535, 9),
    (0, "node", 0, 0), (0, "node", 2, 0), (0, "node", 12, 0), (5, "node", 2, 5), (5, "node", 12, 5), (9, "node", 1, 9), (9, "node", 8, 9),
    (9, "node", 12, 9),
])
texts("entry", lambda record: field(BENCH, 180 + 8 * record, 4), [
    (0, b"la\0", 0), (0, b"la/", 0), (4, b"\0", 4), (4, b"f/", 4), (4, b"..", 4), (6, b".", 6), (4, b"lp", 5), (8, b"ta", 8),
])

says(
    "4.6",
    "6. Mounts: root is a directory; last field zero. Mount 0: parent 0, point = root. Others: parent number lower; point is a directory under "
    "the parent's root and not that root;",
)
changed("mount", mount, [
    (0, "root", 1, 0), (0, "root", 3, 0), (0, "root", 12, 0), (1, "root", 9, 1), (1, "root", 12, 1), (1, "root", 65535, 1),
    (0, "parent", 1, 0), (1, "parent", 1, 1), (1, "parent", 2, 1),
    (0, "point", 1, 0), (1, "point", 0, 1), (1, "point", 3, 1), (1, "point", 8, 1), (1, "point", 12, 1), (1, "point", 65535, 1),
    (0, "zero", 1, 0), (0, "zero", 256, 0), (1, "zero", 1, 1), (1, "zero", 256, 1),
])

says("4.7", "7. Magic links: target mount below M, target a directory or file; a directory is under that mount's root.")
changed("magic", node, [
    (10, "first", 2, 10), (10, "first", 65536, 10),
    (10, "count", 4, 10), (10, "count", 7, None), (10, "count", 8, 10), (10, "count", 12, 10), (10, "count", 65539, 10),
])
check("changed-node-10-to-1-7", node(BENCH, 10, first=1, count=7), broken(7, 10), "`bench`, node 10 to (1,7), not under mount 1's root")
