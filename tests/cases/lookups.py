"""A name looked up in one directory by halving, and walks by way of the directories that are searched so."""

import trees
from calls import BAD_TABLE
from image import entry, node
from listed import *
from tables import SMALLEST, with_text

BENCH = trees.bench()
SIZED = trees.sized()
BEGUN = trees.begun()
HIGH = trees.high()
LENGTHS = trees.lengths()
PAIRS = trees.pairs()
PLACED = trees.placed()
LATE = trees.late()
TWINS = trees.twins()
DOZENS = trees.dozens()
RUNS = trees.runs()
FULL = trees.full()


def each(label, node, rows):
    """A case for each name that is there: the name, its entry, the node of that, and how many names are compared."""
    for asked, *answer in rows:
        lookup(f"lookup-{label}-{asked}", node, asked, named(*answer))


def none(label, node, rows):
    """A case for each name that is not there: the name, and how many names are compared."""
    for asked, compared in rows:
        lookup(f"lookup-{label}-{asked}", node, asked, absent(compared))


def times(*parts):
    """How a name is shown that is letters over and over: how many times, and which."""
    return ", ".join(f"`{letter}`" if count == 1 else f"{count} times `{letter}`" for count, letter in parts if count > 0)


def at_place(place, letter="m"):
    """A name of 40 bytes with a letter at a place."""
    return "n" * place + letter + "n" * (39 - place)


def end_of(end):
    """What a name of `late` ends in, as it stands in the name of a case, and as it is shown."""
    if end.startswith("x"):
        return f"{len(end)}-x", f"{len(end)} times `x`"
    return (end, f"`{end}`") if end else ("nothing", "nothing")


# ---------------------------------------------------------------------------------------------------------------------------------
group(
    "Lookups: the halving",
    "A directory's node, then the name that is asked for in it. The answer is the entry and the node that it names, or an error, then how many "
    "names were compared. The entries of `bench`: 0 lab; 1 cal, 2 pool; 3 abs, 4 fd, 5 loop, 6 t, 7 tare, 8 up; 9 run.",
)
over(BENCH, "bench")
says(
    "18.1, 18.2, 18.3",
    "its names are sorted; search by halving: compare the middle of the names left (of two, the earlier), stop if it is equal, else keep the "
    "side that can hold the name. The search also tells exactly how many names this halving compared:",
)
lookup("lookup-none", 7, "run", absent(0))
lookup("lookup-one", 0, "lab", named(0, 1, 1))
lookup("lookup-one-before", 0, "cal", absent(1))
lookup("lookup-one-after", 0, "tare", absent(1))
lookup("lookup-two-earlier", 1, "cal", named(1, 2, 1))
lookup("lookup-two-later", 1, "pool", named(2, 7, 2))
lookup("lookup-two-before", 1, "abs", absent(1))
lookup("lookup-two-between", 1, "lab", absent(2))
lookup("lookup-two-after", 1, "run", absent(2))
lookup("lookup-second-tree", 8, "run", named(9, 9, 1))
# Of abs, fd, loop, t, tare, up it is loop that is compared first. Before it abs, then fd; after it tare, then t or up.
lookup("lookup-first", 2, "abs", named(3, 5, 2))
lookup("lookup-second", 2, "fd", named(4, 10, 3))
lookup("lookup-middle", 2, "loop", named(5, 6, 1))
lookup("lookup-shorter", 2, "t", named(6, 11, 3))
lookup("lookup-fifth", 2, "tare", named(7, 3, 2))
lookup("lookup-last", 2, "up", named(8, 4, 3))
lookup("lookup-absent-before", 2, "ab", absent(2))
lookup("lookup-absent-between", 2, "b", absent(3))
lookup("lookup-absent-before-middle", 2, "g", absent(3))
lookup("lookup-absent-after-middle", 2, "m", absent(3))
lookup("lookup-beginning", 2, "tar", absent(3))
lookup("lookup-longer", 2, "tares", absent(3))
lookup("lookup-absent-after", 2, "z", absent(3))
lookup("lookup-in-another-directory", 2, "cal", absent(3))
lookup("lookup-in-upper-case", 2, "LOOP", absent(2))
lookup("lookup-smallest", 0, "x", absent(0), table=(SMALLEST, "the smallest image"))

over(SIZED, "sized")
none("of-0", 0, [("b", 0)])
each("of-1", 1, [("b", 0, 7, 1)])
none("of-1", 1, [("a", 1), ("c", 1)])
# b, then d.
each("of-2", 2, [("b", 1, 7, 1), ("d", 2, 8, 2)])
none("of-2", 2, [("a", 1), ("c", 2), ("e", 2)])
# d, then b or f.
each("of-3", 3, [("b", 3, 7, 2), ("d", 4, 8, 1), ("f", 5, 9, 2)])
none("of-3", 3, [("a", 2), ("c", 2), ("e", 2), ("g", 2)])
# h, then d of b, d, f or l of j, l, n, then what is left of these.
each("of-7", 4, [
    ("b", 6, 7, 3), ("d", 7, 8, 2), ("f", 8, 9, 3), ("h", 9, 10, 1), ("j", 10, 11, 3), ("l", 11, 12, 2), ("n", 12, 13, 3),
])
none("of-7", 4, [("a", 3), ("c", 3), ("e", 3), ("g", 3), ("i", 3), ("k", 3), ("m", 3), ("o", 3)])
# The same, but after h there are four, j, l, n, p: of l's other sides j is alone, and n and p are two, n the earlier.
each("of-8", 5, [
    ("b", 13, 7, 3), ("d", 14, 8, 2), ("f", 15, 9, 3), ("h", 16, 10, 1),
    ("j", 17, 11, 3), ("l", 18, 12, 2), ("n", 19, 13, 3), ("p", 20, 14, 4),
])
none("of-8", 5, [("a", 3), ("c", 3), ("e", 3), ("g", 3), ("i", 3), ("k", 3), ("m", 3), ("o", 4), ("q", 4)])
# j. Before it d of b, d, f, h, then b, or f and h; after it p of l, n, p, r, t, then l and n, or r and t.
each("of-10", 6, [
    ("b", 21, 7, 3), ("d", 22, 8, 2), ("f", 23, 9, 3), ("h", 24, 10, 4), ("j", 25, 11, 1),
    ("l", 26, 12, 3), ("n", 27, 13, 4), ("p", 28, 14, 2), ("r", 29, 15, 3), ("t", 30, 16, 4),
])
none("of-10", 6, [
    ("a", 3), ("c", 3), ("e", 3), ("g", 4), ("i", 4), ("k", 3), ("m", 4), ("o", 4), ("q", 3), ("s", 4), ("u", 4),
])

says("18.4", "at most as many as the directory's count has binary digits.")
# Of 3,000 names 1499 is compared first. Where the name is before each that is compared, 3,000, 1,499, 749, 374, 186, 92, 45, 22, 10, 4 and
# 1 names are left at the turns: 11. Where it is after each, 3,000, 1,500, 750, 375, 187, 93, 46, 23, 11, 5, 2 and 1: 12. Entries compared
# on this last way: 1499, 2249, 2624, 2812, 2906, 2953, 2976, 2988, 2994, 2997, 2998, 2999; on the first one: 1499, 749, .., 10, 4, 1, 0.
over(RUNS, "runs")
for label, i, j, answer in [
    ("first", 49, 1, named(0, 50, 11)),
    ("second", 49, 2, named(1, 50, 10)),
    # After entry 1 of four it is 2 of two, then 3.
    ("third", 49, 3, named(2, 50, 11)),
    ("fourth", 49, 4, named(3, 50, 12)),
    ("749", 37, 30, named(749, 38, 2)),
    # Before 1499, then after each: 1,499, 749, 374, 187, 93, 46, 23, 11, 5, 2 and 1 names are left.
    ("before-middle", 25, 59, named(1498, 26, 12)),
    ("middle", 25, 60, named(1499, 26, 1)),
    # After 1499, before 2249 of 1,500, and then before each: 749, 374, 186, 92, 45, 22, 10, 4 and 1 are left.
    ("after-middle", 24, 1, named(1500, 25, 11)),
    ("2249", 12, 30, named(2249, 13, 2)),
    ("2997", 0, 58, named(2997, 1, 10)),
    ("2998", 0, 59, named(2998, 1, 11)),
    ("last", 0, 60, named(2999, 1, 12)),
]:
    lookup(f"lookup-of-3000-{label}", 0, "a" * i + "b" * j, answer, shown=times((i, "a"), (j, "b")))
lookup("lookup-of-3000-before", 0, "a" * 49, absent(11), shown="49 times `a`")
lookup("lookup-of-3000-empty", 0, "", absent(11))
lookup("lookup-of-3000-before-1499", 0, "a" * 25 + "b" * 59 + "a", absent(12), shown="25 times `a`, 59 times `b`, `a`")
lookup("lookup-of-3000-after-1499", 0, "a" * 25 + "b" * 61, absent(11), shown="25 times `a`, 61 times `b`")
lookup("lookup-of-3000-before-2999", 0, "b" * 59 + "a", absent(12), shown="59 times `b`, `a`")
lookup("lookup-of-3000-after", 0, "b" * 61, absent(12), shown="61 times `b`")
# Of 4,096 names 2047 is compared first. Before it are 2,047, one less than a power of two, and so at each turn after: 1 and 11 turns, of
# which each name at an end takes all. After it are 2,048, and after the middle of these, 3071, again a power of two: 2047, 3071, 3583,
# 3839, 3967, 4031, 4063, 4079, 4087, 4091, 4093, 4094, 4095 are compared on the way to the last one.
over(FULL, "full")
for label, i, j, answer in [
    ("first", 63, 1, named(0, 64, 12)),
    ("second", 63, 2, named(1, 64, 11)),
    ("third", 63, 3, named(2, 64, 12)),
    ("1023", 48, 64, named(1023, 49, 2)),
    ("before-middle", 32, 63, named(2046, 33, 12)),
    ("middle", 32, 64, named(2047, 33, 1)),
    # After 2047, before 3071, and first of the 1,023 names between: 10 more.
    ("after-middle", 31, 1, named(2048, 32, 12)),
    ("3071", 16, 64, named(3071, 17, 2)),
    # After 4091 the four names 4092 to 4095 are left: 4093, and before it 4092.
    ("4092", 0, 61, named(4092, 1, 12)),
    ("4093", 0, 62, named(4093, 1, 11)),
    ("4094", 0, 63, named(4094, 1, 12)),
    ("last", 0, 64, named(4095, 1, 13)),
]:
    lookup(f"lookup-of-4096-{label}", 0, "a" * i + "b" * j, answer, shown=times((i, "a"), (j, "b")))
lookup("lookup-of-4096-before", 0, "a" * 63, absent(12), shown="63 times `a`")
lookup("lookup-of-4096-empty", 0, "", absent(12))
lookup("lookup-of-4096-before-2047", 0, "a" * 32 + "b" * 63 + "a", absent(12), shown="32 times `a`, 63 times `b`, `a`")
lookup("lookup-of-4096-after-2047", 0, "a" * 32 + "b" * 65, absent(12), shown="32 times `a`, 65 times `b`")
lookup("lookup-of-4096-before-4095", 0, "b" * 63 + "a", absent(13), shown="63 times `b`, `a`")
lookup("lookup-of-4096-after", 0, "b" * 65, absent(13), shown="65 times `b`")
lookup("lookup-of-4096-5000-bytes", 0, "n" * 5000, absent(13), shown="5,000 times `n`")
# Of 259 names 129 is compared first; the first one takes 129, 64, 31, 15, 7, 3, 1 and 0, the last one 129, 194, 226, 242, 250, 254, 256, 257
# and 258. The lowest of the names is 10.
over(trees.wide(), "wide")
lookup("lookup-of-259-first", 0, "10", named(0, 10, 8))
lookup("lookup-of-259-before", 0, "1", absent(8))
lookup("lookup-of-259-last", 0, "w", named(258, 265, 9))
lookup("lookup-of-259-after", 0, "x", absent(9))

# ---------------------------------------------------------------------------------------------------------------------------------
group("Lookups: the order of names", "What is searched is the order in which the table check wants a directory's names to stand.")
says("4.5e, 18.2", "names strictly ascending bytewise within a directory. .. else keep the side that can hold the name.")
# Compared first is aab, then aa or aba, then a, aaa, ab or b, and after b at last ba. A name is before those that it begins.
over(BEGUN, "begun")
each("begun", 0, [
    ("a", 0, 1, 3), ("aa", 1, 2, 2), ("aaa", 2, 3, 3), ("aab", 3, 4, 1), ("ab", 4, 5, 3), ("aba", 5, 6, 2), ("b", 6, 7, 3), ("ba", 7, 8, 4),
])
none("begun", 0, [
    ("aaaa", 3), ("aaab", 3), ("aaba", 3), ("aac", 3), ("abaa", 3), ("abb", 3), ("baa", 4), ("bb", 4), ("c", 4),
])
# A byte is 0 to 255. Of seven names C3 A9 is compared first, then 7F or FF, then one of the others: 3 for all that are absent.
over(HIGH, "high")
for digits, *answer in [
    ("7a", 0, 1, 3), ("7f", 1, 2, 2), ("80", 2, 3, 3), ("c3a9", 3, 4, 1), ("fe", 4, 5, 3), ("ff", 5, 6, 2), ("ffff", 6, 7, 3),
]:
    lookup(f"lookup-bytes-{digits}", 0, bytes.fromhex(digits), named(*answer), shown=digits.upper())
for digits in ["01", "79", "7e", "7f7f", "81", "c3", "c3a8", "c3a9a9", "fd", "feff", "ff01", "fffe", "ffffff"]:
    lookup(f"lookup-bytes-{digits}", 0, bytes.fromhex(digits), absent(3), shown=digits.upper())
over(BENCH, "bench")
lookup("lookup-byte-255", 2, b"\xff", absent(3), shown="FF")
lookup("lookup-byte-128", 2, b"\x80", absent(3), shown="80")

# Compared first is that of 9 bytes, then 5 or 32, then 3, 7, 16 or 33, then 4, 8, 31 or 255.
over(LENGTHS, "lengths")
for length, *answer in [
    (3, 0, 1, 3), (4, 1, 2, 4), (5, 2, 3, 2), (7, 3, 4, 3), (8, 4, 5, 4), (9, 5, 6, 1),
    (16, 6, 7, 3), (31, 7, 8, 4), (32, 8, 9, 2), (33, 9, 10, 3), (255, 10, 11, 4),
]:
    lookup(f"lookup-length-{length}", 0, "n" * length, named(*answer), shown=times((length, "n")))
# Before 3: 9, 5, 3. Between 5 and 7: 9, 5, 7. Between 9 and 16: 9, 32, 16. Otherwise one more.
for length, compared in [(1, 3), (2, 3), (6, 3), (10, 3), (15, 3), (17, 4), (30, 4), (34, 4), (254, 4), (256, 4), (260, 4), (511, 4), (512, 4)]:
    lookup(f"lookup-length-{length}", 0, "n" * length, absent(compared), shown=times((length, "n")))
# With `m` at its end a name is before the one of its length and after the one of a byte less. Between 32 and 33: 9, 32, 33.
for length, compared in [(4, 4), (8, 4), (9, 4), (32, 4), (33, 3), (255, 4)]:
    lookup(f"lookup-length-{length}-lower", 0, "n" * (length - 1) + "m", absent(compared), shown=times((length - 1, "n"), (1, "m")))
# With `o` at its end it is after all that are as long or longer, and so after all: 9, 32, 33, 255.
for length in [4, 8, 9, 32, 33, 255]:
    lookup(f"lookup-length-{length}-higher", 0, "n" * (length - 1) + "o", absent(4), shown=times((length - 1, "n"), (1, "o")))

# The first byte decides, whatever follows.
over(PAIRS, "pairs")
for directory, length, first, second in [
    (1, 4, 0, 1), (2, 7, 2, 3), (3, 8, 4, 5), (4, 9, 6, 7), (5, 16, 8, 9), (6, 31, 10, 11), (7, 32, 12, 13), (8, 33, 14, 15), (9, 255, 16, 17),
]:
    lookup(f"lookup-pair-{length}-first", directory, "a" + "z" * (length - 1), named(first, 10, 1), shown="the first")
    lookup(f"lookup-pair-{length}-second", directory, "b" + "a" * (length - 1), named(second, 11, 2), shown="the second")
    lookup(f"lookup-pair-{length}-between", directory, "a" + "z" * (length - 2) + "~", absent(2), shown="the first, but with `~` at its end")

# Of 13 names 6 is compared first; before it 2, then 0 and 1, or 4 and 3 or 5; after it 9, then 7 and 8, or 11 and 10 or 12. So 3 for what is
# absent before 0 and between 6 and 7, and 4 else. A name with its `m` further on is later.
over(PLACED, "placed")
PLACES = [
    (0, 0, 1, 3), (3, 1, 2, 4), (4, 2, 3, 2), (7, 3, 4, 4), (8, 4, 5, 3), (9, 5, 6, 4), (15, 6, 7, 1),
    (16, 7, 8, 3), (30, 8, 9, 4), (31, 9, 10, 2), (32, 10, 11, 4), (33, 11, 12, 3), (39, 12, 13, 4),
]
for place, *answer in PLACES:
    lookup(f"lookup-place-{place}", 0, at_place(place), named(*answer), shown=f"`m` at place {place}")
for place in [1, 5, 14, 17, 34]:
    lookup(f"lookup-place-{place}", 0, at_place(place), absent(4), shown=f"`m` at place {place}")
lookup("lookup-place-0-lower", 0, at_place(0, "l"), absent(3), shown="`l` at place 0")
lookup("lookup-place-16-lower", 0, at_place(16, "l"), absent(3), shown="`l` at place 16")
lookup("lookup-place-31-lower", 0, at_place(31, "l"), absent(4), shown="`l` at place 31")
lookup("lookup-place-31-higher", 0, at_place(31, "o"), absent(4), shown="`o` at place 31")
lookup("lookup-place-none", 0, "n" * 40, absent(4), shown="40 times `n`")
lookup("lookup-place-15-shorter", 0, at_place(15)[:39], absent(4), shown="`m` at place 15, the last byte missing")
lookup("lookup-place-15-longer", 0, at_place(15) + "n", absent(3), shown="`m` at place 15, one `n` more")
lookup("lookup-place-31-lower-end", 0, at_place(31)[:39] + "m", absent(4), shown="`m` at place 31 and at the end")
lookup("lookup-place-31-higher-end", 0, at_place(31)[:39] + "o", absent(4), shown="`m` at place 31, `o` at the end")

# The same, in the order of what follows 200 bytes.
over(LATE, "late")
ENDS = [
    ("", 0, 1, 3), ("a", 1, 2, 4), ("aa", 2, 3, 2), ("aaa", 3, 4, 4), ("ab", 4, 5, 3), ("abc", 5, 6, 4), ("b", 6, 7, 1),
    ("ba", 7, 8, 3), ("c", 8, 9, 4), ("d", 9, 10, 2), ("x" * 54, 10, 11, 4), ("x" * 55, 11, 12, 3), ("y", 12, 13, 4),
]
for end, *answer in ENDS:
    lookup(f"lookup-late-{end_of(end)[0]}", 0, "n" * 200 + end, named(*answer), shown=f"200 times `n`, then {end_of(end)[1]}")
for end in ["aaaa", "ac", "bb", "n", "x" * 53, "x" * 56, "z"]:
    lookup(f"lookup-late-{end_of(end)[0]}", 0, "n" * 200 + end, absent(4), shown=f"200 times `n`, then {end_of(end)[1]}")
lookup("lookup-late-199", 0, "n" * 199, absent(3), shown="199 times `n`")
lookup("lookup-late-lower", 0, "n" * 199 + "m", absent(3), shown="199 times `n`, then `m`")
lookup("lookup-late-higher", 0, "n" * 199 + "o", absent(4), shown="199 times `n`, then `o`")
over(TWINS, "twins")
lookup("lookup-alike-first", 0, "n" * 254 + "a", named(0, 1, 1), shown="254 times `n`, then `a`")
lookup("lookup-alike-second", 0, "n" * 254 + "b", named(1, 2, 2), shown="254 times `n`, then `b`")
lookup("lookup-alike-after", 0, "n" * 254 + "c", absent(2), shown="254 times `n`, then `c`")
lookup("lookup-alike-254-bytes", 0, "n" * 254, absent(1), shown="254 times `n`")
lookup("lookup-alike-256-bytes", 0, "n" * 254 + "ax", absent(2), shown="254 times `n`, then `ax`")
lookup("lookup-alike-256-bytes-after", 0, "n" * 254 + "bx", absent(2), shown="254 times `n`, then `bx`")

# ---------------------------------------------------------------------------------------------------------------------------------
group("Lookups: any bytes as the name, any number as the directory")
says("18.1, 18.6", "absent, ENOENT; .. The search also tells exactly how many names this halving compared:")
over(BENCH, "bench")
lookup("lookup-empty", 2, "", absent(2))
lookup("lookup-empty-in-one", 0, "", absent(1))
lookup("lookup-empty-in-none", 7, "", absent(0))
lookup("lookup-dot", 2, ".", absent(2))
lookup("lookup-dot-dot", 2, "..", absent(2))
lookup("lookup-slash", 2, "/", absent(2))
lookup("lookup-slash-before", 2, "/tare", absent(2))
lookup("lookup-slash-behind", 2, "tare/", absent(3))
lookup("lookup-path", 1, "cal/tare", absent(2))
lookup("lookup-zero", 2, b"\0", absent(2))
lookup("lookup-zero-byte", 2, b"loop\0", absent(3))
lookup("lookup-zero-byte-within", 2, b"lo\0op", absent(3))
lookup("lookup-zero-byte-behind-a-beginning", 2, b"t\0", absent(3))
lookup("lookup-zero-byte-behind-the-last", 2, b"up\0", absent(3))
lookup("lookup-256-bytes", 2, "loop" + "x" * 252, absent(3), shown="`loop`, then 252 times `x`")
lookup("lookup-260-bytes", 2, "loop" + "x" * 256, absent(3), shown="`loop`, then 256 times `x`")
lookup("lookup-258-bytes", 2, "up" + "x" * 256, absent(3), shown="`up`, then 256 times `x`")
lookup("lookup-5000-bytes", 2, "n" * 5000, absent(3), shown="5,000 times `n`")
lookup("lookup-5000-zero-bytes", 2, bytes(5000), absent(2), shown="5,000 zero bytes")
lookup("lookup-5000-bytes-in-none", 7, "n" * 5000, absent(0), shown="5,000 times `n`")
ONE_NAME = trees.of_names(["T"]), "a top with the name `T`"
lookup("lookup-65537-bytes", 0, with_text(65537), absent(1), table=ONE_NAME, shown="`T` and 65,536 bytes more")
# Of the 30 names `long` is compared first; `...` is the lowest, and takes 14, 6, 2 and 0. 255 times `n` is 17, and takes 14, 22, 18, 16 and 17.
over(trees.linked(), "linked")
lookup("lookup-three-dots", 0, "...", named(0, 14, 4))
lookup("lookup-two-dots-before-three", 0, "..", absent(4))
lookup("lookup-one-dot-before-three", 0, ".", absent(4))
lookup("lookup-four-dots", 0, "....", absent(5))
lookup("lookup-long", 0, "long", named(14, 10, 1))
lookup("lookup-255-bytes", 0, "n" * 255, named(17, 13, 5), shown="255 times `n`")
lookup("lookup-255-bytes-shorter", 0, "n" * 254, absent(5), shown="254 times `n`")
lookup("lookup-255-bytes-longer", 0, "n" * 256, absent(5), shown="256 times `n`")

says("18.6", "| 117 EUCLEAN (house) | the table check fails | .. In this order: number out of range: EBADF; not a directory: ENOTDIR;")
over(BENCH, "bench")
ONE_LESS = BENCH[:-1], "`bench` without its last byte"
NO_BYTE = b"", "no byte"
lookup("lookup-node-12", 12, "cal", unnamed(EBADF))
lookup("lookup-node-13", 13, "cal", unnamed(EBADF))
lookup("lookup-node-12-empty", 12, "", unnamed(EBADF))
lookup("lookup-node-257", 257, "cal", unnamed(EBADF))
lookup("lookup-node-65535", 65535, "cal", unnamed(EBADF))
lookup("lookup-node-65536", 65536, "lab", unnamed(EBADF))
lookup("lookup-node-65537", 65537, "cal", unnamed(EBADF))
lookup("lookup-node-2-to-32", 2**32, "lab", unnamed(EBADF))
lookup("lookup-node-2-to-32-and-1", 2**32 + 1, "cal", unnamed(EBADF))
lookup("lookup-node-2-to-64-less-1", 2**64 - 1, "cal", unnamed(EBADF))
lookup("lookup-file", 3, "cal", unnamed(ENOTDIR))
lookup("lookup-file-itself", 3, "tare", unnamed(ENOTDIR))
lookup("lookup-file-empty", 3, "", unnamed(ENOTDIR))
lookup("lookup-link", 4, "lab", unnamed(ENOTDIR))
lookup("lookup-last-node", 11, "tare", unnamed(ENOTDIR))
lookup("lookup-magic", 10, "cal", unnamed(ENOTDIR))
lookup("lookup-table", 1, "cal", unnamed(EUCLEAN), table=ONE_LESS)
lookup("lookup-table-absent", 1, "nope", unnamed(EUCLEAN), table=ONE_LESS)
lookup("lookup-table-signature", 1, "cal", unnamed(EUCLEAN), table=(BAD_TABLE, "`bench` with the signature TOC2"))
lookup("lookup-table-names", 1, "cal", unnamed(EUCLEAN), table=(entry(BENCH, 8, offset=0), "`bench` with `la` in place of `up`"))
lookup("lookup-table-target", 1, "cal", unnamed(EUCLEAN), table=(node(BENCH, 10, count=12), "`bench` with node 10 to (0,12)"))
lookup("lookup-table-no-byte", 0, "lab", unnamed(EUCLEAN), table=NO_BYTE)
lookup("lookup-order-table-node", 12, "cal", unnamed(EUCLEAN), table=ONE_LESS)
lookup("lookup-order-table-highest", 2**64 - 1, "cal", unnamed(EUCLEAN), table=ONE_LESS)
lookup("lookup-order-table-file", 3, "cal", unnamed(EUCLEAN), table=ONE_LESS)
lookup("lookup-order-table-empty", 12, "", unnamed(EUCLEAN), table=NO_BYTE)
over(trees.most(), "most")
lookup("lookup-node-4095", 4095, "z", absent(0))
lookup("lookup-node-4096", 4096, "z", unnamed(EBADF))
lookup("lookup-node-4094", 4094, "z", unnamed(ENOTDIR))
over(trees.wide(), "wide")
lookup("lookup-node-268", 268, "f", unnamed(ENOTDIR))
lookup("lookup-node-269", 269, "f", unnamed(EBADF))
over(trees.inner(), "inner")
lookup("lookup-node-0-file", 0, "f", unnamed(ENOTDIR))

says("2.7, 3.2, 18.7", "Kind 1 directory: its entries are count records from first. .. Entry: u32 name offset, u16 name length, u16 node.")
lookup("lookup-above-the-root", 1, "d", named(0, 2, 1))
lookup("lookup-of-node-0", 2, "f", named(2, 0, 2))
over(trees.wide(), "wide")
lookup("lookup-entry-259", 1, "b", named(259, 2, 1))
lookup("lookup-entry-261", 257, "p", named(261, 259, 1))
lookup("lookup-entry-262", 257, "r", named(262, 258, 2))
lookup("lookup-entry-263", 260, "s", named(263, 261, 1))
lookup("lookup-entry-265", 261, "t", named(265, 262, 2))
lookup("lookup-low-byte", 1, "p", absent(1))
over(trees.most(), "most")
lookup("lookup-to-256", 0, "m", named(0, 256, 1))
lookup("lookup-to-4095", 0, "z", named(1, 4095, 2))
over(trees.far(), "far")
lookup("lookup-far", 0, "f", named(0, 1, 1))
lookup("lookup-far-link", 0, "l", named(1, 2, 2))
# Directory 1 is covered, and magic link 10 leads to it; neither matters.
over(trees.mounted(), "mounted")
lookup("lookup-covered", 0, "a", named(0, 1, 2))
lookup("lookup-in-covered-first", 1, "b", named(5, 2, 2))
lookup("lookup-in-covered-middle", 1, "c", named(6, 15, 1))
lookup("lookup-in-covered-last", 1, "f", named(7, 4, 2))
lookup("lookup-in-mounted-middle", 3, "in", named(11, 9, 1))
lookup("lookup-in-mounted-last", 3, "w", named(14, 7, 3))
lookup("lookup-through-magic", 10, "b", unnamed(ENOTDIR))

# ---------------------------------------------------------------------------------------------------------------------------------
group("Names of 7 and 8 bytes among 12 and 13", "Looked up, and taken by a walk, which answers as it did before there was the halving.")
over(DOZENS, "dozens")
says("18.2", "compare the middle of the names left (of two, the earlier), stop if it is equal, else keep the side that can hold the name.")
# Of 12 names 5 is compared first; before it 2, then 0 and 1, or 3 and 4; after it 8, then 6 and 7, or 10 and 9 or 11. So 3 for what is absent
# before 0, between 2 and 3 and between 5 and 6, and 4 else.
each("12", 1, [
    ("entry-b", 0, 3, 3), ("entry-bx", 1, 4, 4), ("entry-d", 2, 5, 2), ("entry-dx", 3, 6, 3), ("entry-f", 4, 7, 4), ("entry-fx", 5, 8, 1),
    ("entry-h", 6, 9, 3), ("entry-hx", 7, 10, 4), ("entry-j", 8, 11, 2), ("entry-jx", 9, 12, 4), ("entry-l", 10, 13, 3), ("entry-lx", 11, 14, 4),
])
none("12", 1, [
    ("entry-", 3), ("entry-a", 3), ("entry-ba", 4), ("entry-bxx", 4), ("entry-c", 4), ("entry-da", 3), ("entry-e", 4), ("entry-fa", 4),
    ("entry-g", 3), ("entry-ha", 4), ("entry-i", 4), ("entry-ja", 4), ("entry-k", 4), ("entry-la", 4), ("entry-m", 4), ("entry-n", 4),
])
# Of 13 names as in `placed`: 3 for what is absent before 0 and between 6 and 7, and 4 else.
each("13", 2, [
    ("entry-b", 12, 3, 3), ("entry-bx", 13, 4, 4), ("entry-d", 14, 5, 2), ("entry-dx", 15, 6, 4), ("entry-f", 16, 7, 3),
    ("entry-fx", 17, 8, 4), ("entry-h", 18, 9, 1), ("entry-hx", 19, 10, 3), ("entry-j", 20, 11, 4), ("entry-jx", 21, 12, 2),
    ("entry-l", 22, 13, 4), ("entry-lx", 23, 14, 3), ("entry-n", 24, 15, 4),
])
none("13", 2, [
    ("entry-", 3), ("entry-a", 3), ("entry-ba", 4), ("entry-bxx", 4), ("entry-c", 4), ("entry-da", 4), ("entry-e", 4), ("entry-fa", 4),
    ("entry-g", 4), ("entry-ha", 3), ("entry-i", 4), ("entry-ja", 4), ("entry-k", 4), ("entry-la", 4), ("entry-m", 4), ("entry-nx", 4),
])

says("9.9, 18.3", "A name: over 255, ENAMETOOLONG; absent, ENOENT; else step to it. .. Nothing that any other function promises should move.")
NAMES = ["entry-b", "entry-bx", "entry-d", "entry-dx", "entry-f", "entry-fx", "entry-h", "entry-hx", "entry-j", "entry-jx", "entry-l", "entry-lx", "entry-n"]
ABSENT = [
    "entry-", "entry-a", "entry-ba", "entry-bxx", "entry-c", "entry-da", "entry-e", "entry-fa", "entry-g", "entry-ha", "entry-i", "entry-ja",
    "entry-k", "entry-la", "entry-m", "entry-nx",
]
for directory, size in [(1, 12), (2, 13)]:
    for file, name in enumerate(NAMES[:size], 3):
        call(f"walk-{size}-{name}", name, found(0, file, 1, 0), at=(0, directory), family=f"`dozens`, handle (0,{directory}): each of its {size} names")
    for name in ABSENT:
        call(f"walk-{size}-{name}", name, refused(ENOENT, 1, 0), at=(0, directory), family=f"`dozens`, handle (0,{directory}): names that are not there")
call("walk-12-entry-n", "entry-n", refused(ENOENT, 1, 0), at=(0, 1))
over(LENGTHS, "lengths")
for file, length in enumerate([3, 4, 5, 7, 8, 9, 16], 1):
    call(f"walk-length-{length}", "n" * length, found(0, file, 1, 0), at=(0, 0), family="`lengths`: its names of up to 16 bytes")
    for place in range(length):
        name = "n" * place + "m" + "n" * (length - place - 1)
        call(f"walk-length-{length}-{place}", name, refused(ENOENT, 1, 0), at=(0, 0), family="`lengths`: each of these with `m` at one place")
over(PLACED, "placed")
for file, (place, *_) in enumerate(PLACES, 1):
    call(f"walk-place-{place}", at_place(place), found(0, file, 1, 0), at=(0, 0), family="`placed`: each of its names")
call("walk-place-31-lower", at_place(31, "l"), refused(ENOENT, 1, 0), at=(0, 0), shown="`l` at place 31")
call("walk-place-31-lower-end", at_place(31)[:39] + "m", refused(ENOENT, 1, 0), at=(0, 0), shown="`m` at place 31 and at the end")
over(LATE, "late")
for file, (end, *_) in enumerate(ENDS, 1):
    call(f"walk-late-{end_of(end)[0]}", "n" * 200 + end, found(0, file, 1, 0), at=(0, 0), family="`late`: each of its names")
call("walk-late-199", "n" * 199, refused(ENOENT, 1, 0), at=(0, 0), shown="199 times `n`")
call("walk-late-bb", "n" * 200 + "bb", refused(ENOENT, 1, 0), at=(0, 0), shown="200 times `n`, then `bb`")
over(RUNS, "runs")
for label, i, j in [("first", 49, 1), ("fourth", 49, 4), ("middle", 25, 60), ("after-middle", 24, 1), ("last", 0, 60)]:
    call(f"walk-3000-{label}", "a" * i + "b" * j, found(0, 1 + i, 1, 0), at=(0, 0), shown=times((i, "a"), (j, "b")))
call("walk-3000-before", "a" * 49, refused(ENOENT, 1, 0), at=(0, 0), shown="49 times `a`")
call("walk-3000-after-1499", "a" * 25 + "b" * 61, refused(ENOENT, 1, 0), at=(0, 0), shown="25 times `a`, 61 times `b`")
call("walk-3000-after", "b" * 61, refused(ENOENT, 1, 0), at=(0, 0), shown="61 times `b`")
over(FULL, "full")
for label, i, j in [("first", 63, 1), ("middle", 32, 64), ("after-middle", 31, 1), ("4094", 0, 63), ("last", 0, 64)]:
    call(f"walk-4096-{label}", "a" * i + "b" * j, found(0, 1 + i, 1, 0), at=(0, 0), shown=times((i, "a"), (j, "b")))
call("walk-4096-before", "a" * 63, refused(ENOENT, 1, 0), at=(0, 0), shown="63 times `a`")
call("walk-4096-after", "b" * 65, refused(ENOENT, 1, 0), at=(0, 0), shown="65 times `b`")
