"""The table check: each rule broken at the first and at the last record that it can be broken at."""

import trees
from image import DIRECTORY, FILE, MAGIC, SYMLINK, Tree, counts, entry, field, header, mount, node, number, put
from listed import *

SMALLEST = bytes.fromhex(
    "544F4331 01000100 00000000 00000000 28000000 01000000 00000000 00000000 00000000 00000000"
)


def with_text(length):
    """The smallest image with a text, so long that the image has this length."""
    text = length - 40
    return header(1, 1, 0, text, length) + SMALLEST[20:] + b"x" * text


def of_nodes(number_of_nodes):
    """A top and files."""
    t = Tree()
    t.top()
    for _ in range(number_of_nodes - 1):
        t.file()
    return t.mount(0).image()


def of_mounts(number_of_mounts):
    """A directory below the top for each mount but mount 0, which covers it with the top once more."""
    t = Tree()
    t.top()
    t.mount(0)
    for _ in range(number_of_mounts - 1):
        t.mount(0, 0, t.directory(0))
    return t.image()


def chain():
    """0 top, 1 to 300 a chain below it, each in the one before, and 301 another top; mount 0 has root 0."""
    t = Tree()
    t.top()
    for parent in range(300):
        t.directory(parent)
    t.top()
    return t.mount(0)


def of_deep_mounts(nested):
    """The chain, and mounts 1 to 12 with roots 20, 40 and so on to 240: each in the one before, on node 300; or all in mount 0, on
    nodes 299 down to 288."""
    t = chain()
    for k in range(1, 13):
        t.mount(20 * k, *((k - 1, 300) if nested else (0, 300 - k)))
    return t.image()


def of_deep_links(last):
    """The chain, mount 1 with root 150 on (0,10), and magic links as nodes 302 to 309: to (0,300), but for the last."""
    t = chain().mount(150, 0, 10)
    for _ in range(7):
        t.magic(None, None, (0, 300))
    t.magic(None, None, last)
    return t.image()


def of_shared_bodies(last=(301, 200), zero=300):
    """A top, and as nodes 1 to 40 symbolic links whose bodies are 200 bytes of one text: by turns from its bytes 0 and 301 on, or some
    bytes further, the last as told. The text is 601 letters, but for a zero byte between."""
    t = Tree()
    t.top()
    text = bytearray(b"s" * 601)
    text[zero] = 0
    t.put(bytes(text))
    for i in range(39):
        t._node(SYMLINK, 0, (0, 301)[i % 2] + i, 200)
    t._node(SYMLINK, 0, *last)
    return t.mount(0).image()


def of_marked_bodies(zero, last):
    """The same with 60 links over 601 letters with a zero byte: bodies of 200 bytes that end before it or begin after it, but for the last."""
    t = Tree()
    t.top()
    text = bytearray(b"s" * 601)
    text[zero] = 0
    t.put(bytes(text))
    for i in range(59):
        t._node(SYMLINK, 0, (0 if zero >= 240 else 260) + i % 40, 200)
    t._node(SYMLINK, 0, *last)
    return t.mount(0).image()


def of_marked_names(byte, last=(0, 200)):
    """A top and a file with 200 names, entries 0 to 199, as above; the text is 200 letters, a byte and 100 letters."""
    t = Tree()
    t.top()
    f = t.file()
    t.put(b"n" * 200 + bytes([byte]) + b"n" * 100)
    for length in range(1, 201):
        t.names.setdefault(0, {})[b"n" * length] = (0, f)
    return entry(t.mount(0).image(), 199, offset=last[0], length=last[1])


def of_twelve(at, byte):
    """A top and a file with 20 names of 12 bytes, entries 0 to 19; a byte of the last one replaced, which is above the others by its first."""
    t = Tree()
    t.top()
    f = t.file()
    for i in range(19):
        t.name(0, b"name%08d" % i, f)
    t.name(0, b"z" * 12, f)
    return in_text(t.mount(0).image(), 19 * 12 + at, byte)


def of_shared_names(byte, last=(0, 100)):
    """A top and a file with 100 names, entries 0 to 99: the first 1, 2 and so on to 100 bytes of one text, but for the last, which is as
    told. The text is 100 letters and a byte."""
    t = Tree()
    t.top()
    f = t.file()
    t.put(b"n" * 100 + bytes([byte]))
    for length in range(1, 100):
        t.names.setdefault(0, {})[b"n" * length] = (0, f)
    t.names[0][b"n" * 100] = (0, f)
    return entry(t.mount(0).image(), 99, offset=last[0], length=last[1])


def of_two_names(length, at, ascending):
    """A top and a file with two names of one length, which differ in the byte at a position, and in the last one the other way round:
    the lower one at that position is entry 0, or else entry 1."""
    lower, higher = bytearray(b"n" * length), bytearray(b"n" * length)
    lower[-1:], higher[-1:] = b"z", b"a"
    lower[at : at + 1], higher[at : at + 1] = b"a", b"b"
    t = Tree()
    t.top()
    f = t.file()
    t.names[0] = {bytes(lower): (t.put(bytes(lower)), f), bytes(higher): (t.put(bytes(higher)), f)}
    image = t.mount(0).image()
    return image if ascending else entry(entry(image, 0, offset=length), 1, offset=0)


def of_entries(number_of_entries):
    """32 directories of 128 names each, one byte long, for one file: nodes 0 to 31, and 32. The first entries beyond 4,096 go to
    the last directory."""
    t = Tree()
    tops = [t.top() for _ in range(32)]
    f = t.file()
    at = {byte: t.put(bytes([byte])) for byte in range(100, 256)}
    for i in range(number_of_entries):
        top, byte = (i // 128, 128 + i % 128) if i < 4096 else (31, 100 + i - 4096)
        t.names.setdefault(tops[top], {})[bytes([byte])] = (at[byte], f)
    return t.mount(0).image()


def first_node(kind):
    """A node of a kind as node 0; 1 top, 2 "s" in 1, 3 another top; mount 0 has root 1. The text is `body`, then `s`."""
    t = Tree()
    if kind == SYMLINK:
        t.symlink(None, None, "body")
    else:
        t.put(b"body")
        if kind == FILE:
            t.file()
        else:
            t.magic(None, None, (0, 1))
    t.top()
    t.directory(1, "s")
    t.top()
    return t.mount(1).image()


def last_node(kind):
    """0 top, 1 "s" in 0, 2 another top, 3 a file, and a node of a kind as node 4; mount 0 has root 0. The text is `s`, then
    `body`."""
    t = Tree()
    t.top()
    t.directory(0, "s")
    t.top()
    t.file()
    if kind == SYMLINK:
        t.symlink(None, None, "body")
    else:
        t.put(b"body")
        if kind == DIRECTORY:
            t.directory(0)
        elif kind == FILE:
            t.file()
        else:
            t.magic(None, None, (0, 1))
    return t.mount(0).image()


def listed():
    """0 top, 1 "d" in 0, 2 a file, 3 a directory in 1 without a name. Entries: 0 "b" and 1 "d" in 0, 2 "a" and 3 "g" in 1; the
    text is `dbag./z`, so the names stand at 1, 0, 2 and 3."""
    t = Tree()
    t.top()
    t.directory(0, "d")
    f = t.file(0, "b")
    t.name(1, "a", f)
    t.name(1, "g", f)
    t.directory(1)
    t.put(b"./z")
    return t.mount(0).image()


def of_four_mounts():
    """0 top, 1 "a" and 2 "b" in 0, 3 a file, 4 top of a second tree, 5 "c" in 4. Mount 1 has root 4 on (0,1), mount 2 root 4 on
    (0,2), mount 3 root 0 on (1,5)."""
    t = Tree()
    t.top()
    t.directory(0, "a")
    t.directory(0, "b")
    t.file()
    t.top()
    t.directory(4, "c")
    return t.mount(0).mount(4, 0, 1).mount(4, 0, 2).mount(0, 1, 5).image()


def like_a_directory():
    """0 a file, 1 top, 2 "s" in 1. Mount 0 has root 1, so that what follows the nodes reads as a directory; mount 1 is on (0,2), and
    its root is node 3 of three."""
    t = Tree()
    t.file()
    t.top()
    t.directory(1, "s")
    return t.mount(1).mount(3, 0, 2).image()


def of_two_magic(first, second):
    """0 top, 1 "p" in 0, 2 and 3 tops, 4 and 5 magic links with these targets. Mount 1 has root 2 on (0,1)."""
    t = Tree()
    t.top()
    t.directory(0, "p")
    t.top()
    t.top()
    t.magic(None, None, first)
    t.magic(None, None, second)
    return t.mount(0).mount(2, 0, 1).image()


def of_body(length):
    """A link whose body has a length: 0 top, 1 the link."""
    t = Tree()
    t.top()
    t.symlink(None, None, b"b" * length)
    return t.mount(0).image()


def of_bodies(length):
    """Twelve links whose bodies have a length, one behind the other in the text: 0 top, 1 to 12 the links."""
    t = Tree()
    t.top()
    for _ in range(12):
        t.symlink(None, None, b"b" * length)
    return t.mount(0).image()


def of_name(length):
    """A name of a length in the top, for a file."""
    t = Tree()
    t.top()
    t.file(0, b"n" * length)
    return t.mount(0).image()


def in_text(image, at, byte):
    """The image with one byte of its text changed."""
    text = len(image) - field(image, 12, 4)
    return put(image, text + at, byte, 1)


# ---------------------------------------------------------------------------------------------------------------------------------
group("The table check, rules 1 to 3")
says("2.9", "Smallest image, whole (40 bytes): ..")
check("table-smallest", SMALLEST, ACCEPTED, "the smallest image")
check("table-bench", trees.bench(), ACCEPTED, "the bench tree")

says("4.1", "1. Image length 20 to 65,536.")
check("rule-1-empty", b"", broken(1), "no byte")
check("rule-1-19", SMALLEST[:19], broken(1), "19 bytes")
for length in range(1, 19):
    check(f"rule-1-{length}", SMALLEST[:length], broken(1), "", family="as many bytes, each other number below 20")
check("rule-1-20", header(1, 1, 0, 0, 20), broken(3), "20 bytes: the header alone")
check("rule-1-65536", trees.far(), ACCEPTED, "65,536 bytes")
check("rule-1-65537", with_text(65537), broken(1), "65,537 bytes")

says("4.2", "2. Signature and zero field.")
for at, byte in enumerate(b"TOC1"):
    check(f"rule-2-signature-{at}", put(SMALLEST, at, byte ^ 0x20, 1), broken(2), f"byte {at} of the signature changed")
check("rule-2-toc2", b"TOC2" + SMALLEST[4:], broken(2), "TOC2")
check("rule-2-zero-low", counts(SMALLEST, zero=1), broken(2), "the zero field 1")
check("rule-2-zero-high", counts(SMALLEST, zero=0x8000), broken(2), "the zero field 0x8000")

says("4.3", "3. N 1 to 4,096, M 1 to 256, E 0 to 4,096; total length = 20 + 12N + 8M + 8E + T = image length.")
check("rule-3-no-node", header(0, 1, 0, 0, 28) + bytes(8), broken(3), "N 0")
check("rule-3-4096-nodes", trees.most(), ACCEPTED, "`most`: N 4,096")
check("rule-3-4097-nodes", of_nodes(4097), broken(3), "N 4,097")
check("rule-3-no-mount", header(1, 0, 0, 0, 32) + SMALLEST[20:32], broken(3), "M 0")
check("rule-3-256-mounts", of_mounts(256), ACCEPTED, "M 256")
check("rule-3-257-mounts", of_mounts(257), broken(3), "M 257")
check("rule-3-4096-entries", of_entries(4096), ACCEPTED, "E 4,096")
check("rule-3-4097-entries", of_entries(4097), broken(3), "E 4,097")
check("rule-3-total-more", counts(SMALLEST, total=41), broken(3), "total length one more")
check("rule-3-total-less", counts(SMALLEST, total=39), broken(3), "total length one less")
check("rule-3-image-longer", SMALLEST + b"\0", broken(3), "a byte behind the image")
for length in range(20, 39):
    check(f"rule-3-image-{length}", SMALLEST[:length], broken(3), "", family="as many bytes of the 40, each number from 20 to 38")
check("rule-3-image-shorter", SMALLEST[:39], broken(3), "the last byte missing")
check("rule-3-text-more", counts(SMALLEST, text=1), broken(3), "text length one more")
check("rule-3-text-counted", counts(SMALLEST + b"x", text=1, total=41), ACCEPTED, "a text of one byte")
check("rule-3-image-and-total-longer", counts(SMALLEST + b"x", total=41), broken(3), "a byte that no count has")

says("4.11", "Sums are plain whole numbers and never wrap.")
check("rule-3-wraps", counts(SMALLEST, entries=1, text=2**32 - 8), broken(3), "E 1, T so large that the sum is 40 in 32 bits")

# ---------------------------------------------------------------------------------------------------------------------------------
group("The table check, rule 4", "Node 0 is the first record; the last is node 4 of five, and node 4,095.")
says("4.4a", "4. Nodes: kind 1 to 4.")
check("rule-4-base-first", first_node(FILE), ACCEPTED, "a file as node 0")
check("rule-4-base-last", last_node(DIRECTORY), ACCEPTED, "a directory as node 4")
for kind in [0, 5, 65535, 256 + FILE]:
    check(f"rule-4-kind-{kind}-first", node(first_node(FILE), 0, kind=kind), broken(4, 0), f"node 0 of kind {kind}")
    check(f"rule-4-kind-{kind}-last", node(last_node(FILE), 4, kind=kind), broken(4, 4), f"node 4 of kind {kind}")
check("rule-4-kind-0-at-4095", node(of_nodes(4096), 4095, kind=0), broken(4, 4095), "node 4,095 of kind 0")

says("4.4b", "A directory's parent is a directory numbered no higher than itself (equal: the top of a tree);")
check("rule-4-parent-higher-first", node(last_node(DIRECTORY), 0, parent=1), broken(4, 0), "node 0 with parent 1")
check("rule-4-parent-higher", node(last_node(DIRECTORY), 1, parent=2), broken(4, 1), "node 1 with parent 2, a directory")
check("rule-4-parent-higher-last", node(last_node(DIRECTORY), 4, parent=5), broken(4, 4), "node 4 with parent 5")
check("rule-4-parent-equal-last", node(last_node(DIRECTORY), 4, parent=4), ACCEPTED, "node 4 with parent 4")
check("rule-4-parent-file-first", node(first_node(FILE), 1, parent=0), broken(4, 1), "node 1 with a file as its parent")
check("rule-4-parent-file-last", node(last_node(DIRECTORY), 4, parent=3), broken(4, 4), "node 4 with a file as its parent")
check("rule-4-parent-link", node(first_node(SYMLINK), 1, parent=0), broken(4, 1), "node 1 with a link as its parent")
check("rule-4-parent-magic", node(first_node(MAGIC), 1, parent=0), broken(4, 1), "node 1 with a magic link as its parent")

says("4.4c, 4.4h", "its first is the sum of earlier directories' counts. These counts sum to E (else record N).")
check("rule-4-first-first", node(last_node(DIRECTORY), 0, first=1), broken(4, 0), "node 0 with first 1")
check("rule-4-first-more-last", node(last_node(DIRECTORY), 4, first=2), broken(4, 4), "node 4, empty, with first 2 for 1")
check("rule-4-first-less-last", node(last_node(DIRECTORY), 4, first=0), broken(4, 4), "node 4, empty, with first 0 for 1")
check("rule-4-sum-more", node(last_node(DIRECTORY), 4, count=1), broken(4, 5), "the last directory's count one more")
check("rule-4-sum-less", node(node(node(node(last_node(DIRECTORY), 0, count=0), 1, first=0), 2, first=0), 4, first=0), broken(4, 5), "no directory has the entry")
check("rule-4-sum-wraps", node(node(last_node(DIRECTORY), 2, count=2**32 - 2), 4, first=2**32 - 1, count=2), broken(4, 5), "counts that sum to E in 32 bits")
check("rule-4-record-before-sum", node(node(last_node(DIRECTORY), 4, count=1), 3, count=1), broken(4, 3), "a bad record, and a wrong sum")

says("4.4d, 4.4e", "Other kinds: parent 0. File: first and count 0.")
for kind, name in [(FILE, "file"), (SYMLINK, "link"), (MAGIC, "magic")]:
    check(f"rule-4-{name}-first", first_node(kind), ACCEPTED, f"a {name} as node 0")
    check(f"rule-4-{name}-last", last_node(kind), ACCEPTED, f"a {name} as node 4")
    check(f"rule-4-{name}-parent-first", node(first_node(kind), 0, parent=1), broken(4, 0), f"a {name} as node 0 with parent 1")
    check(f"rule-4-{name}-parent-last", node(last_node(kind), 4, parent=2), broken(4, 4), f"a {name} as node 4 with parent 2")
check("rule-4-file-first-set-first", node(first_node(FILE), 0, first=1), broken(4, 0), "a file as node 0 with first 1")
check("rule-4-file-first-set-last", node(last_node(FILE), 4, first=2**31), broken(4, 4), "a file as node 4 with first 2^31")
check("rule-4-file-count-set-first", node(first_node(FILE), 0, count=1), broken(4, 0), "a file as node 0 with count 1")
check("rule-4-file-count-set-last", node(last_node(FILE), 4, count=65536), broken(4, 4), "a file as node 4 with count 65,536")

says("4.4f", "Symbolic link: body inside the text, 1 to 4,095 bytes, no zero byte.")
check("rule-4-body-to-the-end", node(last_node(SYMLINK), 4, first=0, count=5), ACCEPTED, "a body that is the whole text")
check("rule-4-body-beyond-first", node(first_node(SYMLINK), 0, count=6), broken(4, 0), "node 0: a body one byte beyond the text")
check("rule-4-body-beyond-last", node(last_node(SYMLINK), 4, first=2), broken(4, 4), "node 4: a body one byte beyond the text")
check("rule-4-body-far-beyond", node(last_node(SYMLINK), 4, first=6, count=1), broken(4, 4), "a body that begins beyond the text")
check("rule-4-body-wraps", node(last_node(SYMLINK), 4, first=2**32 - 1, count=2), broken(4, 4), "first and count whose sum is 1 in 32 bits")
check("rule-4-body-empty-first", node(first_node(SYMLINK), 0, count=0), broken(4, 0), "node 0: an empty body")
check("rule-4-body-empty-last", node(last_node(SYMLINK), 4, count=0), broken(4, 4), "node 4: an empty body")
check("rule-4-body-1", of_body(1), ACCEPTED, "a body of 1 byte")
check("rule-4-body-4095", of_body(4095), ACCEPTED, "a body of 4,095 bytes")
check("rule-4-body-4096", of_body(4096), broken(4, 1), "a body of 4,096 bytes")
check("rule-4-body-zero-first-byte", in_text(first_node(SYMLINK), 0, 0), broken(4, 0), "node 0: a zero byte first in the body")
check("rule-4-body-zero-last-byte", in_text(last_node(SYMLINK), 4, 0), broken(4, 4), "node 4: a zero byte last in the body")
check("rule-4-shared", of_shared_bodies(), ACCEPTED, "40 bodies of 200 bytes of one text, none over the zero byte in it")
check("rule-4-shared-zero-at-end", of_shared_bodies((101, 200)), broken(4, 40), "the same, the last to the zero byte, which is its last")
check("rule-4-shared-before-zero", of_shared_bodies((100, 200)), ACCEPTED, "the same, the last to the byte before it")
check("rule-4-shared-zero-first", of_shared_bodies((300, 200)), broken(4, 40), "the same, the last from it on")
check("rule-4-shared-zero-within", of_shared_bodies((200, 200)), broken(4, 40), "the same, the last over it")
check("rule-4-shared-short", of_shared_bodies((290, 10)), ACCEPTED, "the same, the last the ten bytes before it")
check("rule-4-shared-short-zero", of_shared_bodies((295, 10)), broken(4, 40), "the same, the last ten bytes over it")
check("rule-4-shared-beyond", of_shared_bodies((402, 200)), broken(4, 40), "the same, the last one byte beyond the text")
check("rule-4-shared-first", of_shared_bodies((200, 200), 39), broken(4, 1), "the zero byte at 39: in nodes 1 and 3 and so on, and the last over none")
for zero in [0, 7, 8, 56, 63, 64, 319, 320, 575, 576, 600]:
    across = (max(zero - 9, 0), 10)
    check(f"rule-4-marked-{zero}", of_marked_bodies(zero, across), broken(4, 60), f"60 bodies of one text, the last over its zero byte, at {zero}")
    if zero >= 10:
        check(f"rule-4-marked-{zero}-before", of_marked_bodies(zero, (zero - 10, 10)), ACCEPTED, "the same, the last the ten bytes before it")
    if zero <= 590:
        check(f"rule-4-marked-{zero}-after", of_marked_bodies(zero, (zero + 1, 10)), ACCEPTED, "the same, the last the ten bytes after it")
check("rule-4-marked-far", of_marked_bodies(130, (60, 100)), broken(4, 60), "60 bodies of one text, the last 100 bytes, the zero byte 70 bytes in it")
check("rule-4-marked-to-the-end", of_marked_bodies(130, (131, 470)), ACCEPTED, "the same, the last from the zero byte to the text's end")
check("rule-4-body-zero-of-4095", in_text(of_body(4095), 4094, 0), broken(4, 1), "a zero byte last in a body of 4,095")
for length in [2, 7, 8, 9, 15, 16, 17, 31, 32, 33]:
    for at in sorted({0, length // 2, length - 1}):
        family = f"12 bodies of {length} bytes, the last with a zero byte first, in its middle or last"
        check(f"rule-4-body-{length}-zero-{at}", in_text(of_bodies(length), 11 * length + at, 0), broken(4, 12), "", family=family)

# ---------------------------------------------------------------------------------------------------------------------------------
group("The table check, rule 5", "Four entries: 0 and 1 in node 0, 2 and 3 in node 1.")
LISTED = listed()
says("4.5a, 4.5b, 4.5c", '5. Entries: name inside the text, 1 to 255 bytes, no zero byte or "/", not "." or "..";')
check("rule-5-base", LISTED, ACCEPTED, "the four entries as they are")
check("rule-5-name-to-the-end", entry(LISTED, 3, offset=6), ACCEPTED, "entry 3: the last byte of the text")
check("rule-5-name-beyond-first", entry(LISTED, 0, offset=7), broken(5, 0), "entry 0: a name one byte beyond the text")
check("rule-5-name-beyond-last", entry(LISTED, 3, offset=6, length=2), broken(5, 3), "entry 3: a name that ends one byte beyond the text")
check("rule-5-name-wraps", entry(LISTED, 3, offset=2**32 - 1, length=4), broken(5, 3), "entry 3: offset and length whose sum is 3 in 32 bits")
check("rule-5-name-empty-first", entry(LISTED, 0, length=0), broken(5, 0), "entry 0: an empty name")
check("rule-5-name-empty-last", entry(LISTED, 3, length=0), broken(5, 3), "entry 3: an empty name")
check("rule-5-name-1", of_name(1), ACCEPTED, "a name of 1 byte")
check("rule-5-name-255", of_name(255), ACCEPTED, "a name of 255 bytes")
check("rule-5-name-256", of_name(256), broken(5, 0), "a name of 256 bytes")
check("rule-5-zero-first", in_text(LISTED, 1, 0), broken(5, 0), "entry 0: a zero byte")
check("rule-5-zero-last", entry(in_text(LISTED, 4, 0), 3, length=2), broken(5, 3), "entry 3: `g` and a zero byte")
check("rule-5-slash-first", in_text(LISTED, 1, ord("/")), broken(5, 0), "entry 0: a slash")
check("rule-5-slash-last", entry(LISTED, 3, offset=3, length=3), broken(5, 3), "entry 3: `g./`")
check("rule-5-zero-of-255", in_text(of_name(255), 254, 0), broken(5, 0), "a zero byte last in a name of 255")
check("rule-5-slash-of-255", in_text(of_name(255), 254, ord("/")), broken(5, 0), "a slash last in a name of 255")
check("rule-5-dot-first", in_text(LISTED, 1, ord(".")), broken(5, 0), "entry 0: `.`")
check("rule-5-dot-last", entry(in_text(LISTED, 2, ord("!")), 3, offset=4), broken(5, 3), "entry 3: `.`, above the name before it")
DOTS = in_text(in_text(of_name(2), 0, ord(".")), 1, ord("."))
check("rule-5-dots-first", DOTS, broken(5, 0), "entry 0: `..`")
check("rule-5-dots-last", entry(in_text(in_text(LISTED, 2, ord("!")), 5, ord(".")), 3, offset=4, length=2), broken(5, 3), "entry 3: `..`, above the name before it")
check("rule-5-three-dots", in_text(in_text(in_text(of_name(3), 0, ord(".")), 1, ord(".")), 2, ord(".")), ACCEPTED, "`...`")
check("rule-5-dot-and-more", in_text(of_name(2), 0, ord(".")), ACCEPTED, "`.n`")

says("4.5d", "node below N;")
check("rule-5-node-n-first", entry(LISTED, 0, node=4), broken(5, 0), "entry 0: node 4 of four")
check("rule-5-node-n-last", entry(LISTED, 3, node=4), broken(5, 3), "entry 3: node 4 of four")
check("rule-5-node-65535", entry(LISTED, 3, node=65535), broken(5, 3), "entry 3: node 65,535")
check("rule-5-at-4095", entry(of_entries(4096), 4095, node=33), broken(5, 4095), "entry 4,095: node 33 of 33")

says("4.5e", "names strictly ascending bytewise within a directory.")
check("rule-5-equal-first", in_text(LISTED, 1, ord("d")), broken(5, 1), "entries 0 and 1 alike")
check("rule-5-equal-last", in_text(LISTED, 3, ord("a")), broken(5, 3), "entries 2 and 3 alike")
check("rule-5-descending-first", in_text(LISTED, 1, ord("e")), broken(5, 1), "entry 0 above entry 1")
check("rule-5-descending-last", in_text(LISTED, 2, ord("h")), broken(5, 3), "entry 2 above entry 3")
check("rule-5-across-directories", in_text(LISTED, 2, ord("c")), ACCEPTED, "entry 2 below entry 1, of another directory")
check("rule-5-bytes-unsigned", in_text(LISTED, 3, 0x80), ACCEPTED, "entry 3 the byte 0x80")
check("rule-5-bytes-unsigned-down", in_text(LISTED, 2, 0x80), broken(5, 3), "entry 2 the byte 0x80")
check("rule-5-longer-above", entry(LISTED, 3, offset=2, length=2), ACCEPTED, "`a`, then `ag`")
check("rule-5-longer-before", entry(entry(LISTED, 2, offset=2, length=2), 3, offset=2, length=1), broken(5, 3), "`ag`, then `a`")

says("4.5f", "An entry that names a directory stands in that directory's parent, and its node number is above the parent's.")
check("rule-5-named-twice", entry(LISTED, 0, node=1), ACCEPTED, "entry 0: the directory that entry 1 names too")
check("rule-5-other-parent-first", entry(LISTED, 0, node=3), broken(5, 0), "entry 0: a directory of node 1, in node 0")
check("rule-5-other-parent-last", entry(LISTED, 3, node=1), broken(5, 3), "entry 3: node 1, in itself")
check("rule-5-right-parent-last", entry(LISTED, 3, node=3), ACCEPTED, "entry 3: the directory of node 1")
check("rule-5-top-first", entry(LISTED, 0, node=0), broken(5, 0), "entry 0: the top, in itself")
check("rule-5-top-last", entry(entry(node(LISTED, 1, parent=1), 1, node=2), 3, node=1), broken(5, 3), "entry 3: node 1, a top, in itself")

says("4.5e", "names strictly ascending bytewise within a directory")
for length, at in [(33, 0), (33, 16), (33, 31), (64, 8), (64, 20), (64, 28), (64, 40), (200, 35), (200, 100), (200, 170), (255, 24), (255, 130), (255, 250)]:
    shown = f"two names of {length} bytes that differ at byte {at}, and in the last the other way round"
    check(f"rule-5-long-{length}-{at}", of_two_names(length, at, True), ACCEPTED, shown)
    check(f"rule-5-long-{length}-{at}-exchanged", of_two_names(length, at, False), broken(5, 1), "the same, exchanged")

says("4.5a, 4.5b", 'name inside the text, 1 to 255 bytes, no zero byte or "/"')
check("rule-5-shared", of_shared_names(47), ACCEPTED, "100 names of one text, none over the slash at its end")
check("rule-5-shared-slash", of_shared_names(47, (1, 100)), broken(5, 99), "the same, the last over it")
check("rule-5-shared-zero", of_shared_names(0, (1, 100)), broken(5, 99), "the same with a zero byte for the slash")
check("rule-5-shared-slash-alone", of_shared_names(47, (100, 1)), broken(5, 99), "the same, the last the slash alone")
check("rule-5-shared-letter", of_shared_names(111, (1, 100)), ACCEPTED, "the same with a letter for the slash")
check("rule-5-twelve", of_twelve(11, ord("~")), ACCEPTED, "20 names of 12 bytes")
for at in [1, 7, 8, 11]:
    for byte, shown in [(0, "zero"), (47, "slash")]:
        check(f"rule-5-twelve-{shown}-{at}", of_twelve(at, byte), broken(5, 19), f"the same, a {shown} at byte {at} of the last")
check("rule-5-marked", of_marked_names(47), ACCEPTED, "200 names of one text, none over the slash in it")
check("rule-5-marked-slash", of_marked_names(47, (1, 200)), broken(5, 199), "the same, the last over it")
check("rule-5-marked-zero", of_marked_names(0, (1, 200)), broken(5, 199), "the same with a zero byte for the slash")
check("rule-5-marked-slash-first", of_marked_names(47, (200, 101)), broken(5, 199), "the same, the last from the slash on")
check("rule-5-marked-letter", of_marked_names(111, (1, 250)), ACCEPTED, "the same with a letter for the slash, the last over it")

# ---------------------------------------------------------------------------------------------------------------------------------
group("The table check, rule 6", "Four mounts; mounts 1 and 2 hang in mount 0, mount 3 in mount 1.")
MOUNTS = of_four_mounts()
says("4.6a, 4.6b", "6. Mounts: root is a directory; last field zero.")
check("rule-6-base", MOUNTS, ACCEPTED, "the four mounts as they are")
check("rule-6-root-file-first", mount(MOUNTS, 0, root=3, point=3), broken(6, 0), "mount 0: a file as root and point")
check("rule-6-root-file-last", mount(MOUNTS, 3, root=3), broken(6, 3), "mount 3: a file as root")
check("rule-6-root-n-first", mount(MOUNTS, 0, root=6, point=6), broken(6, 0), "mount 0: node 6 of six")
check("rule-6-root-n-last", mount(MOUNTS, 3, root=6), broken(6, 3), "mount 3: node 6 of six")
check("rule-6-root-n-like-a-directory", like_a_directory(), broken(6, 1), "mount 1: node 3 of three, whose bytes are mount 0's")
check("rule-6-root-like-a-directory-mended", mount(like_a_directory(), 1, root=2), ACCEPTED, "the same with node 2")
check("rule-6-field-first", mount(MOUNTS, 0, zero=1), broken(6, 0), "mount 0: last field 1")
check("rule-6-field-last", mount(MOUNTS, 3, zero=0x100), broken(6, 3), "mount 3: last field 256")
check("rule-6-field-at-255", mount(of_mounts(256), 255, zero=1), broken(6, 255), "mount 255: last field 1")

says("4.6c", "Mount 0: parent 0, point = root.")
check("rule-6-mount-0-parent", mount(MOUNTS, 0, parent=1), broken(6, 0), "mount 0 with parent 1")
check("rule-6-mount-0-point", mount(MOUNTS, 0, point=1), broken(6, 0), "mount 0 with another point")
check("rule-6-mount-0-elsewhere", first_node(FILE), ACCEPTED, "mount 0 with root and point 1")

says("4.6d, 4.6e", "Others: parent number lower; point is a directory under the parent's root and not that root;")
check("rule-6-parent-own-first", mount(MOUNTS, 1, parent=1, point=5), broken(6, 1), "mount 1 in itself")
check("rule-6-parent-own-last", mount(MOUNTS, 3, parent=3, point=1), broken(6, 3), "mount 3 in itself")
check("rule-6-parent-higher", mount(MOUNTS, 1, parent=2, point=5), broken(6, 1), "mount 1 in mount 2")
check("rule-6-parent-m", mount(MOUNTS, 3, parent=4), broken(6, 3), "mount 3 in mount 4 of four")
check("rule-6-point-file-first", mount(MOUNTS, 1, point=3), broken(6, 1), "mount 1 on a file")
check("rule-6-point-file-last", mount(MOUNTS, 3, point=3), broken(6, 3), "mount 3 on a file")
check("rule-6-point-n", mount(MOUNTS, 3, point=6), broken(6, 3), "mount 3 on node 6 of six")
check("rule-6-point-outside-first", mount(MOUNTS, 1, point=5), broken(6, 1), "mount 1 on a directory of the second tree")
check("rule-6-point-outside-last", mount(MOUNTS, 3, point=1), broken(6, 3), "mount 3 on a directory of the first tree")
check("rule-6-point-root-first", mount(MOUNTS, 1, point=0), broken(6, 1), "mount 1 on mount 0's root")
check("rule-6-point-root-last", mount(MOUNTS, 3, point=4), broken(6, 3), "mount 3 on mount 1's root")
check("rule-6-parent-other", mount(MOUNTS, 3, parent=2), ACCEPTED, "mount 3 in mount 2, whose root is the same")
LAYERED = trees.layered()
check("rule-6-layered", LAYERED, ACCEPTED, "`layered` as it is: mount 6 in mount 2, whose root is 4")
check("rule-6-point-beside-mount-2", mount(LAYERED, 6, point=8), broken(6, 6), "`layered`, mount 6 on 8, under mount 1's root and not mount 2's")
check("rule-6-point-above-mount-2", mount(LAYERED, 6, point=3), broken(6, 6), "`layered`, mount 6 on 3, the parent of its parent's root")
check("rule-6-point-root-of-mount-2", mount(LAYERED, 6, point=4), broken(6, 6), "`layered`, mount 6 on 4, its parent's root")

says("4.6f, 4.10", "no two mounts, neither being mount 0, share parent and point. .. Of two records that clash, the later breaks the rule.")
check("rule-6-clash-first", mount(MOUNTS, 2, point=1), broken(6, 2), "mounts 1 and 2 on one place")
check("rule-6-clash-last", mount(MOUNTS, 3, parent=0, point=2), broken(6, 3), "mounts 2 and 3 on one place")
check("rule-6-clash-far", mount(MOUNTS, 3, parent=0, point=1), broken(6, 3), "mounts 1 and 3 on one place")
AGAIN = mount(mount(MOUNTS, 2, root=0), 3, parent=2, point=1)
check("rule-6-same-point-other-parent", AGAIN, ACCEPTED, "mounts 1 and 3 on one node, in mounts 0 and 2")

MANY = of_mounts(40)
check("rule-6-many", MANY, ACCEPTED, "40 mounts, all but mount 0 in mount 0, mount m on node m")
check("rule-6-many-clash-first", mount(MANY, 2, point=1), broken(6, 2), "of these, mounts 1 and 2 on one place")
check("rule-6-many-clash-last", mount(MANY, 39, point=1), broken(6, 39), "of these, mounts 1 and 39 on one place")
check("rule-6-many-clash-two", mount(mount(MANY, 38, point=7), 39, point=1), broken(6, 38), "of these, mounts 7 and 38, and mounts 1 and 39")
check("rule-6-many-other-parent", mount(MANY, 39, parent=1, point=1), ACCEPTED, "of these, mounts 1 and 39 on one node, in mounts 0 and 1")

says("3.4", "Node n is under root r if following parents from n, n itself included, meets r.")
DEEP, NESTED = of_deep_mounts(False), of_deep_mounts(True)
check("rule-6-deep", DEEP, ACCEPTED, "a chain of 300 directories, 12 of them roots, of mounts at its end in mount 0")
check("rule-6-deep-clash", mount(DEEP, 12, point=299), broken(6, 12), "the same, mounts 1 and 12 on one place")
check("rule-6-deep-other-tree", mount(DEEP, 12, point=301), broken(6, 12), "the same, mount 12 on the other top")
check("rule-6-deep-first", mount(mount(DEEP, 12, point=301), 5, point=301), broken(6, 5), "the same, mounts 5 and 12 on it")
check("rule-6-deep-nested", NESTED, ACCEPTED, "the same chain and roots, each mount in the one before, on the last directory")
check("rule-6-deep-nested-above", mount(NESTED, 12, point=219), broken(6, 12), "of these, mount 12 on 219, the parent of its parent's root")
check("rule-6-deep-nested-root", mount(NESTED, 12, point=220), broken(6, 12), "of these, mount 12 on 220, its parent's root")
check("rule-6-deep-nested-below", mount(NESTED, 12, point=221), ACCEPTED, "of these, mount 12 on 221, below its parent's root")
check("rule-6-deep-nested-other-tree", mount(NESTED, 12, point=301), broken(6, 12), "of these, mount 12 on the other top")

# ---------------------------------------------------------------------------------------------------------------------------------
group("The table check, rule 7", "A magic link as node 0 or as node 4; one mount.")
FIRST, LAST = first_node(MAGIC), last_node(MAGIC)
says("4.7", "7. Magic links: target mount below M, target a directory or file; a directory is under that mount's root.")
check("rule-7-mount-m-first", node(FIRST, 0, first=1), broken(7, 0), "node 0: mount 1 of one")
check("rule-7-mount-m-last", node(LAST, 4, first=1), broken(7, 4), "node 4: mount 1 of one")
check("rule-7-mount-65536", node(LAST, 4, first=65536), broken(7, 4), "mount 65,536")
check("rule-7-target-n-first", node(FIRST, 0, count=4), broken(7, 0), "node 0: node 4 of four")
check("rule-7-target-n-last", node(LAST, 4, count=5), broken(7, 4), "node 4: node 5 of five")
check("rule-7-target-65537", node(LAST, 4, count=65537), broken(7, 4), "node 65,537")
check("rule-7-target-itself-first", node(FIRST, 0, count=0), broken(7, 0), "node 0: itself")
check("rule-7-target-itself-last", node(LAST, 4, count=4), broken(7, 4), "node 4: itself")
check("rule-7-target-link", node(trees.bench(), 10, count=4), broken(7, 10), "the bench tree's `fd` to (0,4), a link")
check("rule-7-target-file", node(LAST, 4, count=3), ACCEPTED, "node 4: a file")
check("rule-7-target-outside-first", node(FIRST, 0, count=3), broken(7, 0), "node 0: a directory of another tree")
check("rule-7-target-outside-last", node(LAST, 4, count=2), broken(7, 4), "node 4: a directory of another tree")
check("rule-7-target-root", node(LAST, 4, count=0), ACCEPTED, "node 4: mount 0's root")
check("rule-7-file-in-any-mount", node(trees.bench(), 10, first=1), ACCEPTED, "the bench tree's `fd` to (1,3), a file of mount 0")
check("rule-7-directory-in-its-mount", node(trees.bench(), 10, first=1, count=8), ACCEPTED, "the bench tree's `fd` to (1,8)")
check("rule-7-directory-in-other-mount", node(trees.bench(), 10, first=1, count=2), broken(7, 10), "the bench tree's `fd` to (1,2)")
check("rule-7-two-mounts-hold", of_two_magic((0, 1), (1, 2)), ACCEPTED, "nodes 4 and 5 into two mounts, each under its root")
check("rule-7-two-mounts", of_two_magic((0, 3), (1, 0)), broken(7, 4), "node 4 into mount 0, node 5 into mount 1, both outside")
check("rule-7-two-mounts-swapped", of_two_magic((1, 0), (0, 3)), broken(7, 4), "node 4 into mount 1, node 5 into mount 0, both outside")
check("rule-7-second-mount-alone", of_two_magic((0, 0), (1, 0)), broken(7, 5), "node 4 to (0,0), node 5 to (1,0)")
check("rule-7-mount-3", node(LAYERED, 15, first=3, count=11), ACCEPTED, "`layered`, node 15 to (3,11), under mount 3's root")
check("rule-7-mount-2-beside", node(LAYERED, 15, first=2, count=8), broken(7, 15), "`layered`, node 15 to (2,8), under mount 1's root and not mount 2's")
check("rule-7-mount-6-above", node(LAYERED, 15, first=6, count=0), broken(7, 15), "`layered`, node 15 to (6,0), under mount 0's root and not mount 6's")
check("rule-7-second-mount-top", of_two_magic((0, 1), (1, 3)), broken(7, 5), "node 4 to (0,1), node 5 to a top of no mount, in mount 1")
check("rule-7-deep", of_deep_links((0, 300)), ACCEPTED, "eight magic links to the end of a chain of 300 directories")
check("rule-7-deep-mount-1", of_deep_links((1, 300)), ACCEPTED, "the same, the last by mount 1, whose root is 150")
check("rule-7-deep-mount-1-root", of_deep_links((1, 150)), ACCEPTED, "the same, the last to (1,150), that root")
check("rule-7-deep-mount-1-above", of_deep_links((1, 149)), broken(7, 309), "the same, the last to (1,149), above that root")
check("rule-7-deep-other-tree", of_deep_links((0, 301)), broken(7, 309), "the same, the last to the other top")
check("rule-7-deep-first", node(of_deep_links((0, 301)), 305, count=301), broken(7, 305), "the same, node 305 to it too")

# ---------------------------------------------------------------------------------------------------------------------------------
group("The table check, which rule and record")
says("4.8, 4.9", 'The table check answers "accepted", or the lowest rule broken and the lowest record number breaking it (0 for rules 1 to 3).')
BENCH = trees.bench()
check("lowest-1-2", b"toc" + SMALLEST[3:19], broken(1), "19 bytes, a bad signature")
check("lowest-2-3", counts(SMALLEST, zero=1, nodes=0), broken(2), "the zero field 1, N 0")
check("lowest-3-4", node(counts(SMALLEST, total=41), 0, kind=0), broken(3), "the total wrong, node 0 of kind 0")
check("lowest-4-5", node(entry(BENCH, 0, length=0), 11, parent=1), broken(4, 11), "node 11 wrong, entry 0 wrong")
check("lowest-4-sum-5", node(entry(LISTED, 0, length=0), 3, count=1), broken(4, 4), "the sum of counts wrong, entry 0 wrong")
check("lowest-5-6", mount(entry(BENCH, 9, length=0), 0, zero=1), broken(5, 9), "entry 9 wrong, mount 0 wrong")
check("lowest-6-7", node(mount(BENCH, 1, zero=1), 10, first=9), broken(6, 1), "mount 1 wrong, node 10's target wrong")
check("lowest-4-record", node(node(BENCH, 3, parent=1), 9, parent=1), broken(4, 3), "nodes 3 and 9 wrong")
check("lowest-5-record", entry(entry(BENCH, 2, length=0), 8, length=0), broken(5, 2), "entries 2 and 8 wrong")
check("lowest-6-record", mount(mount(MOUNTS, 3, zero=1), 2, zero=1), broken(6, 2), "mounts 2 and 3 wrong")
check("lowest-7-record", node(node(LAST, 4, first=1), 3, kind=MAGIC, first=1), broken(7, 3), "nodes 3 and 4 with targets out of range")

says("5.4, 5.5, 7.1", "| 117 EUCLEAN (house) | the table check fails | .. A refusal carries errno, detail and both counts (0 before the walk). Detail is 255 except for unknown bits.")
over(BENCH, "bench")
for name, image in [
    ("1", b""),
    ("2", b"TOC2" + BENCH[4:]),
    ("3", BENCH + b"\0"),
    ("4", node(BENCH, 11, parent=1)),
    ("5", entry(BENCH, 9, length=0)),
    ("6", mount(BENCH, 1, zero=1)),
    ("7", node(BENCH, 10, first=9)),
]:
    call(f"refused-table-rule-{name}", "cal/tare", refused(EUCLEAN), image=image, shown=f"a table that breaks rule {name}, `cal/tare`")
