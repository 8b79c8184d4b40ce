"""Table images, built from their records, and the parts that the library builds images from. Nothing here knows an answer."""

from collections import namedtuple

DIRECTORY, FILE, SYMLINK, MAGIC = 1, 2, 3, 4


def number(value, width):
    return value.to_bytes(width, "little")


class Tree:
    """Nodes, mounts and names, to be written as an image."""

    def __init__(self):
        self.nodes = []
        self.mounts = []
        self.names = {}
        self.text = b""

    def _node(self, kind, parent, first, count):
        self.nodes.append((kind, parent, first, count))
        return len(self.nodes) - 1

    def put(self, text):
        """Where a text stands, appended to the text area."""
        at = len(self.text)
        self.text += text
        return at

    def top(self):
        return self._node(DIRECTORY, len(self.nodes), 0, 0)

    def directory(self, parent, name=None):
        node = self._node(DIRECTORY, parent, 0, 0)
        return self.name(parent, name, node)

    def file(self, parent=None, name=None):
        return self.name(parent, name, self._node(FILE, 0, 0, 0))

    def symlink(self, parent, name, body):
        body = body if isinstance(body, bytes) else body.encode()
        return self.name(parent, name, self._node(SYMLINK, 0, self.put(body), len(body)))

    def magic(self, parent, name, target):
        return self.name(parent, name, self._node(MAGIC, 0, *target))

    def name(self, parent, name, node):
        if name is not None:
            name = name if isinstance(name, bytes) else name.encode()
            self.names.setdefault(parent, {})[name] = (self.put(name), node)
        return node

    def mount(self, root, parent=None, point=None):
        """Mount 0 is given by its root alone."""
        self.mounts.append((root, parent or 0, root if point is None else point, 0))
        return self

    def image(self):
        nodes, entries = b"", b""
        listed = 0
        for at, (kind, parent, first, count) in enumerate(self.nodes):
            if kind == DIRECTORY:
                names = sorted(self.names.get(at, {}).items())
                first, count = listed, len(names)
                listed += count
                for name, (offset, node) in names:
                    entries += number(offset, 4) + number(len(name), 2) + number(node, 2)
            nodes += number(kind, 2) + number(parent, 2) + number(first, 4) + number(count, 4)
        mounts = b"".join(number(field, 2) for mount in self.mounts for field in mount)
        body = nodes + mounts + entries + self.text
        return header(len(self.nodes), len(self.mounts), listed, len(self.text), 20 + len(body)) + body


def header(nodes, mounts, entries, text, total):
    counts = number(nodes, 2) + number(mounts, 2) + number(entries, 2) + number(0, 2)
    return b"TOC1" + counts + number(text, 4) + number(total, 4)


def field(image, at, width):
    return int.from_bytes(image[at : at + width], "little")


def put(image, at, value, width):
    """The image with one field changed."""
    return image[:at] + number(value, width) + image[at + width :]


# Where a field stands in its record, and its width.
LAYOUT = {
    "header": {"nodes": (4, 2), "mounts": (6, 2), "entries": (8, 2), "zero": (10, 2), "text": (12, 4), "total": (16, 4)},
    "node": {"kind": (0, 2), "parent": (2, 2), "first": (4, 4), "count": (8, 4)},
    "mount": {"root": (0, 2), "parent": (2, 2), "point": (4, 2), "zero": (6, 2)},
    "entry": {"offset": (0, 4), "length": (4, 2), "node": (6, 2)},
}


def _at(image, kind, record):
    """Where a record begins."""
    nodes, mounts = field(image, 4, 2), field(image, 6, 2)
    if kind == "header":
        return 0
    if kind == "node":
        return 20 + 12 * record
    return 20 + 12 * nodes + 8 * record + (8 * mounts if kind == "entry" else 0)


def _set(whole, at, kind, fields):
    """The bytes with fields changed of the record that begins at a place."""
    for name, value in fields.items():
        offset, width = LAYOUT[kind][name]
        whole = put(whole, at + offset, value, width)
    return whole


def _change(image, kind, record, fields):
    return _set(image, _at(image, kind, record), kind, fields)


def node(image, record, **fields):
    """The image with fields of a node changed."""
    return _change(image, "node", record, fields)


def mount(image, record, **fields):
    """The image with fields of a mount changed."""
    return _change(image, "mount", record, fields)


def entry(image, record, **fields):
    """The image with fields of an entry changed."""
    return _change(image, "entry", record, fields)


def counts(image, **fields):
    """The image with fields of its header changed."""
    return _change(image, "header", 0, fields)


def one_byte(image, kind, record, name, byte, value):
    """The image with one byte of a field changed; byte 0 is the lowest."""
    offset, width = LAYOUT[kind][name]
    assert byte < width
    return put(image, _at(image, kind, record) + offset + byte, value, 1)


def _records(kind, rows):
    widths = [width for _, width in LAYOUT[kind].values()]
    return b"".join(number(value, width) for row in rows for value, width in zip(row, widths, strict=True))


def nodes(*rows):
    """Node records: kind, parent, first, count."""
    return _records("node", rows)


def mounts(*rows):
    """Mount records: root, parent, point; the last field is zero."""
    return _records("mount", [(*row, 0) for row in rows])


def entries(*rows):
    """Entry records: offset and length of the name, node."""
    return _records("entry", rows)


def spelled(head, *parts):
    """An image whose counts, text length and total length are spelled out, as its parts are."""
    image = header(*head) + b"".join(parts)
    assert len(image) == head[-1]
    return image


class Source(namedtuple("Source", "nodes mounts entries text")):
    """What an image is built from: the bytes of node, mount and entry records, and a text."""

    def node(self, record, **fields):
        return self._replace(nodes=_set(self.nodes, 12 * record, "node", fields))

    def mount(self, record, **fields):
        return self._replace(mounts=_set(self.mounts, 8 * record, "mount", fields))

    def entry(self, record, **fields):
        return self._replace(entries=_set(self.entries, 8 * record, "entry", fields))

    def placed(self, text, names, bodies):
        """The same records over another text: offsets of the names, in entry order, and of the bodies, by their nodes."""
        source = self._replace(text=text)
        assert len(names) == len(self.entries) // 8
        for record, at in enumerate(names):
            source = source.entry(record, offset=at)
        for record, at in bodies.items():
            source = source.node(record, first=at)
        return source


def source(image):
    """The parts of an image whose counts are right."""
    ends = [20, _at(image, "mount", 0), _at(image, "entry", 0), _at(image, "entry", field(image, 8, 2)), len(image)]
    return Source(*(image[start:end] for start, end in zip(ends, ends[1:])))
