"""The trees that the cases walk."""

from image import Tree


def bench():
    """The bench tree of RULES 13."""
    t = Tree()
    top = t.top()
    lab = t.directory(top, "lab")
    cal = t.directory(lab, "cal")
    _cal(t, cal)
    t.directory(lab, "pool")
    second = t.top()
    t.file(second, "run")
    t.magic(cal, "fd", (0, 3))
    t.symlink(cal, "t", "tare/")
    return t.mount(0).mount(8, 0, 7).image()


def _cal(t, cal):
    """What the bench tree has in "cal", nodes 3 to 6; 10 and 11 come later."""
    t.file(cal, "tare")
    t.symlink(cal, "up", "../..")
    t.symlink(cal, "abs", "/lab/cal/tare")
    t.symlink(cal, "loop", "loop")


def moved():
    """The bench tree with all outside of "cal", node 2, changed. Directories 1 top, 2 "bin" in 1, which is "cal", 9 "dev" in 1, 12 top of a second tree,
    14 "deep" in 12. Files 0 "zz" in 9, 13 "run" in 12. Link 7 "link" in 1 to `bin/tare`, magic 8 "proc" in 1 to (1,13). In 2 all is as in the bench
    tree, but that 10 "fd" leads to (1,12). Mount 0 has root 1, mount 1 root 12 on (0,9), mount 2 root 9 on (1,14)."""
    t = Tree()
    zz = t.file()
    top = t.top()
    cal = t.directory(top, "bin")
    _cal(t, cal)
    t.symlink(top, "link", "bin/tare")
    t.magic(top, "proc", (1, 13))
    t.name(t.directory(top, "dev"), "zz", zz)
    t.magic(cal, "fd", (1, 12))
    t.symlink(cal, "t", "tare/")
    far = t.top()
    t.file(far, "run")
    t.directory(far, "deep")
    return t.mount(1).mount(12, 0, 9).mount(9, 1, 14).image()


def alone():
    """The bench tree with all outside of "lab", node 1, changed: it is the top of its tree and the root of mount 0. Directory 12 is the top of a tree
    that no mount shows. Files 0 "hidden" in 7, which mount 1 covers, 13 "far" in 12. In 1 all else is as in the bench tree, but that 10 "fd" leads
    to (1,9)."""
    t = Tree()
    hidden = t.file()
    lab = t.top()
    cal = t.directory(lab, "cal")
    _cal(t, cal)
    t.name(t.directory(lab, "pool"), "hidden", hidden)
    t.file(t.top(), "run")
    t.magic(cal, "fd", (1, 9))
    t.symlink(cal, "t", "tare/")
    t.file(t.top(), "far")
    return t.mount(1).mount(8, 0, 7).image()


def mounted():
    """Directories 0 top, 1 "a" in 0, 2 "b" in 1, 3 top of a second tree, 7 "w" in 3, 12 top of a third, 13 "p" in 0, 15 "c" in 1, 16 "v" in 3.
    File 4 "f", in 1, 3 and 7. Links in 3: 5 "abs" to `/a`, 6 "here" to `w`; magic in 3: 8 "out" to (0,0), 9 "in" to (1,7). Magic in 0:
    10 "under" to (0,1), 11 "far" to (1,3), 14 "file" to (1,4). Mount 1 has root 3 on (0,1), mount 2 root 12 on (0,2), mount 3
    root 0 on (0,13), mount 4 root 12 on (1,16)."""
    t = Tree()
    top = t.top()
    a = t.directory(top, "a")
    t.directory(a, "b")
    second = t.top()
    f = t.file(second, "f")
    t.name(a, "f", f)
    t.symlink(second, "abs", "/a")
    t.symlink(second, "here", "w")
    w = t.directory(second, "w")
    t.name(w, "f", f)
    t.magic(second, "out", (0, 0))
    t.magic(second, "in", (1, 7))
    t.magic(top, "under", (0, 1))
    t.magic(top, "far", (1, 3))
    t.top()
    t.directory(top, "p")
    t.magic(top, "file", (1, 4))
    t.directory(a, "c")
    t.directory(second, "v")
    return t.mount(0).mount(3, 0, 1).mount(12, 0, 2).mount(0, 0, 13).mount(12, 1, 16).image()


def linked():
    """Directories 0 top, 1 "d" in 0. File 2 "f" in 0 and 1. Links in 0: 3 "sub" to `d/`, 4 "chain" to `way/`, 5 "way" to `f`,
    6 "to" to `sub`, 7 "root" to `/`, in 1 too, 8 "slashes" to `///`, 9 "dot" to `.`, 10 "long" to a name of 256 bytes, 11 "gone" to
    `nothing`, 12 "past" to `f/x`, 15 "dirs" to `sub/`, 16 "again" to `root`. File 13 with a name of 255 bytes, 14 "..." in 0. Magic in
    0: 17 "md" to (0,1), 20 "mf" to (0,2); links in 0 to them: 18 "tomd" to `md`, 19 "tomds" to `md/`, 21 "tomf" to `mf`, 22 "tomfs" to
    `mf/`. Links in 0 with absolute bodies: 23 "absf" to `/d/f/`, 24 "absd" to `/d/`, 25 "absfs" to `//d//f//`, 26 "absway" to `/way/`,
    27 "absto" to `/to/`, 28 "absmf" to `/mf/`; and 29 "toabsf" to `absf`, 30 "toabsd" to `absd`."""
    t = Tree()
    top = t.top()
    d = t.directory(top, "d")
    f = t.file(top, "f")
    t.name(d, "f", f)
    t.symlink(top, "sub", "d/")
    t.symlink(top, "chain", "way/")
    t.symlink(top, "way", "f")
    t.symlink(top, "to", "sub")
    root = t.symlink(top, "root", "/")
    t.name(d, "root", root)
    t.symlink(top, "slashes", "///")
    t.symlink(top, "dot", ".")
    t.symlink(top, "long", "n" * 256)
    t.symlink(top, "gone", "nothing")
    t.symlink(top, "past", "f/x")
    t.file(top, "n" * 255)
    t.file(top, "...")
    t.symlink(top, "dirs", "sub/")
    t.symlink(top, "again", "root")
    t.magic(top, "md", (0, 1))
    t.symlink(top, "tomd", "md")
    t.symlink(top, "tomds", "md/")
    t.magic(top, "mf", (0, 2))
    t.symlink(top, "tomf", "mf")
    t.symlink(top, "tomfs", "mf/")
    t.symlink(top, "absf", "/d/f/")
    t.symlink(top, "absd", "/d/")
    t.symlink(top, "absfs", "//d//f//")
    t.symlink(top, "absway", "/way/")
    t.symlink(top, "absto", "/to/")
    t.symlink(top, "absmf", "/mf/")
    t.symlink(top, "toabsf", "absf")
    t.symlink(top, "toabsd", "absd")
    return t.mount(0).image()


def bound():
    """Directories 0 top, 1 "lab" in 0, 2 "bind" in 1. Mount 1 has root 0 on (0,2): it shows the tree again."""
    t = Tree()
    top = t.top()
    lab = t.directory(top, "lab")
    t.directory(lab, "bind")
    return t.mount(0).mount(0, 0, 2).image()


def chains():
    """Directories 0 top, 1 "d" in 0. In 0 magic 2 "m" to (0,0) and link 3 "j" to `/d`, and for i from 0 to 40 links to the next:
    `t<i>` by its name, `n<i>` by its name and `/.`, `a<i>` by an absolute body, `u<i>` and `v<i>` by its name. The links numbered 40
    lead to "d", `u40` to "m" and `v40` to "j". Then file 209 "f" in 0, magic 210 "mf" to it, and for i from 0 to 40 more links to the
    next: `w<i>` by its name, `s<i>` and `r<i>` by its name and `/`; `w40` leads to `f`, `s40` to `f/`, `r40` to `d/`. Links in 0 to one
    body each: "e" to `f/`, "k" to `d/`, "x" to `w2/`, "y" to `t2/`, "z" to `mf/`."""
    t = Tree()
    top = t.top()
    t.directory(top, "d")
    t.magic(top, "m", (0, 0))
    t.symlink(top, "j", "/d")
    for i in range(41):
        last = i == 40
        t.symlink(top, f"t{i}", "d" if last else f"t{i + 1}")
        t.symlink(top, f"n{i}", "d" if last else f"n{i + 1}/.")
        t.symlink(top, f"a{i}", "/d" if last else f"/a{i + 1}")
        t.symlink(top, f"u{i}", "m" if last else f"u{i + 1}")
        t.symlink(top, f"v{i}", "j" if last else f"v{i + 1}")
    f = t.file(top, "f")
    t.magic(top, "mf", (0, f))
    for i in range(41):
        last = i == 40
        t.symlink(top, f"w{i}", "f" if last else f"w{i + 1}")
        t.symlink(top, f"s{i}", "f/" if last else f"s{i + 1}/")
        t.symlink(top, f"r{i}", "d/" if last else f"r{i + 1}/")
    for name, body in [("e", "f/"), ("k", "d/"), ("x", "w2/"), ("y", "t2/"), ("z", "mf/")]:
        t.symlink(top, name, body)
    return t.mount(0).image()


def longest():
    """40 directories, each named "d" in the one before. In each but the last, "a" is one link to 2,046 times `./` and `d/a`; in
    the last it is a link to 2,047 times `./` and `.`; "s" in the first is a link to 2,047 times `./` and `s`."""
    t = Tree()
    rooms = [t.top()]
    for _ in range(39):
        rooms.append(t.directory(rooms[-1], "d"))
    on = t.symlink(rooms[0], "a", "./" * 2046 + "d/a")
    for room in rooms[1:39]:
        t.name(room, "a", on)
    t.symlink(rooms[39], "a", "./" * 2047 + ".")
    t.symlink(rooms[0], "s", "./" * 2047 + "s")
    return t.mount(0).image()


def alike():
    """Names of 20 bytes in the top: "abcdefgh", one more byte, "ijklmnopqrs". With "1" it is a file, with "3" another."""
    t = Tree()
    top = t.top()
    t.file(top, "abcdefgh1ijklmnopqrs")
    t.file(top, "abcdefgh3ijklmnopqrs")
    return t.mount(0).image()


def layered():
    """Directories 0 top, 1 "a" in 0, 2 "b" in 1, 3 top of a second tree, 4 "c" in 3, 5 "d" in 4, 6 "e" in 5, 7 top of a third tree, 8 "g"
    in 3, 9 "h" in 5, 11 "i" in 7, 16 "k" in 11. File 10 "f" in 7. Magic in 0: 12 "in" to (2,6), 14 "near" to (1,6), 15 "far" to (5,6); in 4: 13 "m"
    to (2,6). Mount 1 has root 3 on (0,1), mount 2 root 4 on (1,8), mount 3 root 7 on (2,5), mount 4 root 11 on (1,5), mount 5 root 3 on
    (3,11), mount 6 root 1 on (2,9)."""
    t = Tree()
    top = t.top()
    a = t.directory(top, "a")
    t.directory(a, "b")
    second = t.top()
    c = t.directory(second, "c")
    d = t.directory(c, "d")
    e = t.directory(d, "e")
    third = t.top()
    t.directory(second, "g")
    t.directory(d, "h")
    t.file(third, "f")
    i = t.directory(third, "i")
    t.magic(top, "in", (2, e))
    t.magic(c, "m", (2, e))
    t.magic(top, "near", (1, e))
    t.magic(top, "far", (5, e))
    t.directory(i, "k")
    t.mount(0).mount(3, 0, 1).mount(4, 1, 8).mount(7, 2, 5)
    return t.mount(11, 1, 5).mount(3, 3, 11).mount(1, 2, 9).image()


def wide():
    """269 nodes, 266 entries, 259 of them in the top. Directories 0 top, 1 "a" in 0, 2 "b" in 1, 3 "c" in 0, 4 top of a second tree, 5 "e"
    in 4; files 6 to 255 in 0, each named by its number; directories 256 "o" and 257 "q" in 0, 258 "r" and 259 "p" in 257, 260 top of a
    third tree, 261 "s" in 260, 262 "t" in 261; file 263 "f" in 261. Links in 0: 264 "l" to `q/r`, 265 "w" to 150 times `./` and `q`.
    Magic in 0: 266 "m" to (0,257), 267 "n" to (1,263), 268 "u" to (1,261). Mount 1 has root 260 on (0,259)."""
    t = Tree()
    top = t.top()
    a = t.directory(top, "a")
    t.directory(a, "b")
    t.directory(top, "c")
    second = t.top()
    t.directory(second, "e")
    for i in range(6, 256):
        t.file(top, f"{i}")
    t.directory(top, "o")
    q = t.directory(top, "q")
    t.directory(q, "r")
    t.directory(q, "p")
    third = t.top()
    s = t.directory(third, "s")
    t.directory(s, "t")
    t.file(s, "f")
    t.symlink(top, "l", "q/r")
    t.symlink(top, "w", "./" * 150 + "q")
    t.magic(top, "m", (0, 257))
    t.magic(top, "n", (1, 263))
    t.magic(top, "u", (1, 261))
    return t.mount(0).mount(260, 0, 259).image()


def far():
    """65,536 bytes. Directory 0 top; file 1 "f" and link 2 "l" to `f` in it, with their names and the body in the last three bytes."""
    t = Tree()
    top = t.top()
    t.put(b"x" * (65536 - 20 - 3 * 12 - 8 - 2 * 8 - 3))
    t.file(top, "f")
    t.symlink(top, "l", "f")
    return t.mount(0).image()


def narrow():
    """A table of every kind of record, in which no field is above 255. Directories 0 top, 1 "d" in 0, 5 top of a second tree. File 2 "f",
    link 3 "l" to `f` and magic 4 "m" to (1,5) in 1. Mount 1 has root 5 on (0,1)."""
    t = Tree()
    top = t.top()
    d = t.directory(top, "d")
    t.file(d, "f")
    t.symlink(d, "l", "f")
    t.magic(d, "m", (1, 5))
    t.top()
    return t.mount(0).mount(5, 0, 1).image()


def inner():
    """Mount 0's root is not node 0 and not a top. File 0 "f" in 2; directories 1 top, 2 "d" in 1, 3 "e" in 2. Mount 0 has root 2."""
    t = Tree()
    f = t.file()
    top = t.top()
    d = t.directory(top, "d")
    t.directory(d, "e")
    t.name(d, "f", f)
    return t.mount(d).image()


def most():
    """4,096 nodes and 256 mounts. Directories 0 top, 1 to 255 in 0 without names, 4,095 "z" in 0; magic 256 "m" in 0 to (255,4095); files 257
    to 4,094 without names. Mounts 1 to 255 have root 0, each on the directory of its number in mount 0."""
    t = Tree()
    top = t.top()
    t.mount(top)
    for _ in range(255):
        t.mount(top, 0, t.directory(top))
    t.magic(top, "m", (255, 4095))
    for _ in range(257, 4095):
        t.file()
    t.directory(top, "z")
    return t.image()


def sized():
    """Directories 0 top, without names, and in it, themselves unnamed, 1 with 1 name, 2 with 2, 3 with 3, 4 with 7, 5 with 8 and 6 with 10:
    as many as that of "b", "d", "f", "h", "j", "l", "n", "p", "r", "t". The first name of each is for file 7, the second for file 8 and so
    on to 16. So their first entries are 0, 1, 3, 6, 13 and 21."""
    t = Tree()
    top = t.top()
    at = t.put(b"bdfhjlnprt")
    sizes = [1, 2, 3, 7, 8, 10]
    directories = [t.directory(top) for _ in sizes]
    files = [t.file() for _ in range(10)]
    for directory, size in zip(directories, sizes):
        t.names[directory] = {t.text[at + i : at + i + 1]: (at + i, files[i]) for i in range(size)}
    return t.mount(top).image()


def of_names(names):
    """A top with names, entries 0, 1 and so on, each for the file numbered one higher. Those that begin others share their text."""
    t = Tree()
    top = t.top()
    names = [name if isinstance(name, bytes) else name.encode() for name in names]
    assert names == sorted(names)
    for name in sorted(names, key=len, reverse=True):
        if name not in t.text:
            t.put(name)
    t.names[top] = {name: (t.text.find(name), t.file()) for name in names}
    return t.mount(top).image()


def begun():
    """Names in the top that begin others: "a", "aa", "aaa", "aab", "ab", "aba", "b", "ba". Entries 0 to 7, for files 1 to 8."""
    return of_names(["a", "aa", "aaa", "aab", "ab", "aba", "b", "ba"])


def high():
    """Names in the top with bytes above 127: 7A, 7F, 80, C3 A9, FE, FF, FF FF. Entries 0 to 6, for files 1 to 7."""
    return of_names([b"\x7a", b"\x7f", b"\x80", b"\xc3\xa9", b"\xfe", b"\xff", b"\xff\xff"])


def lengths():
    """Names in the top of 3, 4, 5, 7, 8, 9, 16, 31, 32, 33 and 255 bytes, all of them `n`. Entries 0 to 10, for files 1 to 11."""
    return of_names([b"n" * length for length in (3, 4, 5, 7, 8, 9, 16, 31, 32, 33, 255)])


def pairs():
    """Directories 1 to 9 in the top, all of them unnamed, each with two names of one length, for files 10 and 11: of 4, 7, 8, 9, 16, 31, 32,
    33 and 255 bytes. The first is `a` and then `z`, the second `b` and then `a`. Directory d has entries 2 d - 2 and 2 d - 1."""
    t = Tree()
    top = t.top()
    lengths = [4, 7, 8, 9, 16, 31, 32, 33, 255]
    directories = [t.directory(top) for _ in lengths]
    files = [t.file(), t.file()]
    for directory, length in zip(directories, lengths):
        t.name(directory, b"a" + b"z" * (length - 1), files[0])
        t.name(directory, b"b" + b"a" * (length - 1), files[1])
    return t.mount(top).image()


def placed():
    """13 names of 40 bytes in the top: `m` at one place and `n` at all others, at places 0, 3, 4, 7, 8, 9, 15, 16, 30, 31, 32, 33 and 39,
    counted from 0. Entries 0 to 12 in this order, for files 1 to 13."""
    return of_names([b"n" * at + b"m" + b"n" * (39 - at) for at in (0, 3, 4, 7, 8, 9, 15, 16, 30, 31, 32, 33, 39)])


def late():
    """13 names in the top, alike in their first 200 bytes, which are `n`. Then nothing, `a`, `aa`, `aaa`, `ab`, `abc`, `b`, `ba`, `c`, `d`,
    54 and 55 times `x`, and `y`. Entries 0 to 12, for files 1 to 13."""
    return of_names(["n" * 200 + end for end in ("", "a", "aa", "aaa", "ab", "abc", "b", "ba", "c", "d", "x" * 54, "x" * 55, "y")])


def twins():
    """Two names of 255 bytes in the top: 254 times `n`, then `a`, file 1; the same, then `b`, file 2."""
    return of_names(["n" * 254 + "a", "n" * 254 + "b"])


def dozens():
    """Directories 1 and 2 in the top, all of them unnamed, with 12 and 13 names of 7 and 8 bytes: "entry-b", "entry-bx", "entry-d",
    "entry-dx" and so on by "f", "h" and "j" to "entry-l", "entry-lx", and in 2 also "entry-n". Entries 0 to 11 and 12 to 24; the first
    name of each is for file 3, the second for file 4 and so on to 15."""
    t = Tree()
    top = t.top()
    directories = [t.directory(top), t.directory(top)]
    names = [b"entry-" + letter + more for letter in (b"b", b"d", b"f", b"h", b"j", b"l") for more in (b"", b"x")] + [b"entry-n"]
    files = [t.file() for _ in names]
    for directory, size in zip(directories, (12, 13)):
        for name, f in zip(names[:size], files):
            t.name(directory, name, f)
    return t.mount(top).image()


def of_runs(first, second):
    """Names in the top of i times `a`, then j times `b`, for i below `first` and j from 1 to `second`, all in one text; file 1 + i."""
    t = Tree()
    top = t.top()
    files = [t.file() for _ in range(first)]
    at = t.put(b"a" * (first - 1) + b"b" * second)
    t.names[top] = {b"a" * i + b"b" * j: (at + first - 1 - i, files[i]) for i in range(first) for j in range(1, second + 1)}
    return t.mount(top).image()


def runs():
    """3,000 names in the top: i times `a`, then j times `b`, for i from 0 to 49 and j from 1 to 60, for file 1 + i. Those with more `a` come
    first, then those with fewer `b`: a name is entry 60 (49 - i) + j - 1."""
    return of_runs(50, 60)


def full():
    """4,096 names in the top, made like those of `runs` with i from 0 to 63 and j from 1 to 64: a name is entry 64 (63 - i) + j - 1."""
    return of_runs(64, 64)
