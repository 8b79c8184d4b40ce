"""The list of cases, and the words that it is written in.

A group has a title, `says` quotes the wording of the rules that the cases after it follow from, with their numbers in
docs/RULES.md, and a case is a call, a table check, a lookup or a build with the answer that these give. No answer is computed: each is
written down.

Descriptors are used in sequences: `start` makes them, and each `open_path`, `dup`, `close` and `set_mark` after it, up to the next `start`,
is a case that finds them as the calls before have left them. A sequence's cases have its name and their number in it."""

from image import number

EUCLEAN, E2BIG, EINVAL, ENAMETOOLONG, ENOENT = 117, 7, 22, 36, 2
EBADF, ENOTDIR, ELOOP, EXDEV = 9, 20, 40, 18
EMFILE, ENOTTY, ERANGE = 24, 25, 34
ERRNOS = {
    117: "EUCLEAN", 7: "E2BIG", 22: "EINVAL", 36: "ENAMETOOLONG", 2: "ENOENT",
    9: "EBADF", 20: "ENOTDIR", 40: "ELOOP", 18: "EXDEV", 24: "EMFILE", 25: "ENOTTY", 34: "ERANGE",
}

O_DIRECTORY, O_NOFOLLOW, O_PATH, O_CLOEXEC = 0x10000, 0x20000, 0x200000, 0x80000
NO_XDEV, NO_MAGICLINKS, NO_SYMLINKS, BENEATH, IN_ROOT = 1, 2, 4, 8, 16
FLAGS = {0x10000: "O_DIRECTORY", 0x20000: "O_NOFOLLOW", 0x200000: "O_PATH", 0x80000: "O_CLOEXEC"}
RESOLVE = {1: "NO_XDEV", 2: "NO_MAGICLINKS", 4: "NO_SYMLINKS", 8: "BENEATH", 16: "IN_ROOT"}

LAB = (0, 1)

# The kinds of records.
CHECK, CALL, START, OPEN, DUP, CLOSE, SET_MARK, LOOKUP, BUILD = range(1, 10)

# The most bytes that an image has.
MOST = 65536


def found(mount, node, components, links):
    return (0, 255, mount, node, components, links)


def refused(errno, components=0, links=0, detail=255):
    return (errno, detail, 0, 0, components, links)


def given(descriptor, mount=0, node=0, components=0, links=0):
    """What an open answers that gives a descriptor; a dup tells no place and no counts."""
    return found(mount, node, components, links) + (descriptor,)


def named(entry, node, compared):
    """What a lookup answers that finds an entry, with how many names were compared."""
    return (0, entry, node, compared)


def unnamed(errno, compared=0):
    """What one answers that finds none. Only ENOENT has compared any."""
    return (errno, 0, 0, compared)


def absent(compared):
    return unnamed(ENOENT, compared)


def written(image):
    """What a build answers that writes this image, and the image."""
    return (0, 0, 0, len(image)), image


def unwritten(rule, record=0):
    """What one answers whose image would break a rule."""
    return (EUCLEAN, rule, record, 0), b""


def short(length):
    """What one answers whose buffer is shorter than its image, which has this length."""
    return (ERANGE, 0, 0, length), b""


class Whatever:
    """So many bytes of a part whose bytes do not matter: the list has no bytes of their own for them."""

    def __init__(self, length):
        self.length = length

    def __len__(self):
        return self.length


DONE = found(0, 0, 0, 0)
ACCEPTED = (0, 0)


def broken(rule, record=0):
    return (rule, record)


def open_how(flags=0, resolve=0, mode=0, tail=b""):
    """u64 flags, u16 mode with 6 padding bytes, u64 resolve, and what follows them."""
    return number(flags, 8) + number(mode, 8) + number(resolve, 8) + tail


class Case:
    def __init__(self, name, image, answer, shown, family):
        self.name, self.image, self.answer = name, image, answer
        self.shown, self.family, self.sequence = shown, family, None
        self.kind, self.path, self.how = CHECK, b"", b""
        self.mount, self.node, self.mark = 0, 0, False
        self.text, self.written = b"", b""


class Sentence:
    def __init__(self, rules, words):
        self.rules, self.words, self.cases = rules, words, []


class Group:
    def __init__(self, title, about):
        self.title, self.about, self.sentences = title, about, []


GROUPS = []
_now = {}


def group(title, about=""):
    GROUPS.append(Group(title, about))


def says(rules, words):
    GROUPS[-1].sentences.append(Sentence(rules, words))


def over(image, name):
    """The table of the calls that follow, and its name."""
    _now["image"], _now["over"] = image, name


def _add(case):
    GROUPS[-1].sentences[-1].cases.append(case)


def _bits(names, bits):
    known = [name for bit, name in names.items() if bits & bit]
    rest = bits & ~sum(names)
    return known + ([f"{rest:#x}"] if rest else [])


def _text(path):
    if len(path) > 60:
        return f"{len(path)} bytes"
    shown = path.decode("latin-1").replace("\0", "\\0").replace("|", "\\|")
    return f"`{shown}`" if shown else "empty"


def call(name, path, answer, at=LAB, mark=False, flags=0, resolve=0, how=None, image=None, shown=None, family=None):
    path = path if isinstance(path, bytes) else path.encode()
    tree = _now["over"]
    words = [shown or _text(path)]
    if tree != "bench" and image is None:
        words.insert(0, f"`{tree}`:")
    if at != (LAB if tree == "bench" else (0, 0)):
        words.append(f"handle ({at[0]},{at[1]})")
    if mark:
        words.append("marked")
    words += _bits(FLAGS, flags) + _bits(RESOLVE, resolve)
    if how is not None and shown is None:
        words.append(f"open_how of {len(how)} bytes")
    words = ", ".join(words).replace(":,", ":", 1)
    case = Case(name, _now["image"] if image is None else image, answer, words, family)
    case.kind, case.path = CALL, path
    case.how = open_how(flags, resolve) if how is None else how
    case.mount, case.node, case.mark = at[0], at[1], mark
    _add(case)


def check(name, image, answer, shown, family=None):
    _add(Case(name, image, answer, shown, family))


def lookup(name, node, asked, answer, table=None, shown=None):
    """A name that is asked for in the directory `node`; of another table than that of the calls if an image is given, and its name."""
    asked = asked if isinstance(asked, bytes) else asked.encode()
    image, where = table or (_now["image"], f"`{_now['over']}`")
    words = f"node {_shown(node)}: {shown or _text(asked)}"
    case = Case(name, image, answer, words if where == "`bench`" else f"{where}, {words}", None)
    case.kind, case.path, case.node = LOOKUP, asked, node
    _add(case)


def build(name, source, answer, shown, room=MOST, family=None):
    """The image of four parts, asked for with a buffer of `room` bytes."""
    numbers, image = answer
    words = shown if room == MOST else f"{shown}; a buffer of {room:,} bytes"
    case = Case(name, source.nodes, numbers, words, family)
    case.kind, case.path, case.how, case.text = BUILD, source.mounts, source.entries, source.text
    case.mount, case.written = room, image
    _add(case)


def start(name, answer=ACCEPTED, image=None, shown=None):
    """Begins a sequence of calls on descriptors, over a table that may be refused."""
    _now["sequence"], _now["made"] = name, 0
    _now["started"] = _now["image"] if image is None else image
    case = Case(name, _now["started"], answer, f"start over {shown or '`' + _now['over'] + '`'}", None)
    case.kind, case.sequence = START, name
    _add(case)


def _next(kind, number, answer, words, family):
    """The next call of the sequence. The number stands where a handle's mount does."""
    _now["made"] += 1
    answer += (0,) * (7 - len(answer))
    case = Case(f"{_now['sequence']}-{_now['made']}", _now["started"], answer, words, family)
    case.kind, case.mount, case.sequence = kind, number, _now["sequence"]
    _add(case)
    return case


def _shown(number):
    return {2**32: "2^32", 2**32 + 1: "2^32 + 1", 2**32 + 2: "2^32 + 2", 2**64 - 1: "2^64 - 1"}.get(number, f"{number}")


def open_path(number, path, answer, mark=False, flags=0, resolve=0, how=None, shown=None, family=None):
    path = path if isinstance(path, bytes) else path.encode()
    words = [f"open {_shown(number)}: {shown or _text(path)}"] + (["mark asked"] if mark else [])
    words += [word.replace("0x", "flags 0x") for word in _bits(FLAGS, flags)]
    words += [word.replace("0x", "resolve 0x") for word in _bits(RESOLVE, resolve)]
    case = _next(OPEN, number, answer, ", ".join(words), family)
    case.path, case.mark = path, mark
    case.how = open_how(flags, resolve) if how is None else how


def dup(number, answer, family=None):
    _next(DUP, number, answer, f"dup {_shown(number)}", family)


def close(number, answer=DONE, family=None):
    _next(CLOSE, number, answer, f"close {_shown(number)}", family)


def set_mark(number, answer=DONE, family=None):
    _next(SET_MARK, number, answer, f"set the mark on {_shown(number)}", family)


def in_words(case):
    if case.kind in (CHECK, START):
        rule, record = case.answer
        return "accepted" if rule == 0 else f"rule {rule}, record {record}"
    if case.kind == LOOKUP:
        errno, entry, node, compared = case.answer
        return (ERRNOS[errno] if errno else f"entry {entry}, node {node}") + f"; {compared}"
    if case.kind == BUILD:
        errno, rule, record, length = case.answer
        return {0: f"written; {length:,}", ERANGE: f"ERANGE; {length:,}", EUCLEAN: f"rule {rule}, record {record}"}[errno]
    errno, detail, mount, node, components, links = case.answer[:6]
    counts = f"; {components},{links}"
    if errno != 0:
        bit = f" {detail}" if detail != 255 else ""
        return ERRNOS[errno] + bit + counts
    place = f"({mount},{node}){counts}"
    words = {CALL: place, CLOSE: "done", SET_MARK: "done"}
    words |= {OPEN: f"{case.answer[-1]}: {place}", DUP: f"{case.answer[-1]}"}
    return words[case.kind]
