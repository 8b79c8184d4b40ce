"""The fields, byte by byte: what each byte of a field but the lowest is there for."""

import trees
from image import LAYOUT, one_byte
from listed import *
from tables import of_mounts, of_name

NARROW = trees.narrow()
WIDE = trees.wide()
FAR = trees.far()
OF_256_MOUNTS = of_mounts(256)


def upper_bytes(kind, record, name, answer, label=None, lowest=1):
    """`narrow` with one byte of a field not zero, for each byte but the lowest. The highest byte is 0x80, others are 1."""
    width = LAYOUT[kind][name][1]
    owner = kind if kind == "header" else f"{kind} {record}"
    for byte in range(lowest, width):
        value = 0x80 if byte == width - 1 else 1
        image = one_byte(NARROW, kind, record, name, byte, value)
        case = "-".join(["byte", kind, *([label] if label else []), name, str(byte)])
        check(case, image, answer, f"`narrow`, {owner}: byte {byte} of {name} is {value:#x}")


# ---------------------------------------------------------------------------------------------------------------------------------
group(
    "The fields, byte by byte",
    "A byte that is not zero in an accepted table is needed by a walk over `wide` or `far`: directories 256 to 261 of `wide` differ from "
    "directories 0 to 5 in the high byte alone. Every byte but the lowest is also set alone in `narrow`, where it breaks a rule.",
)
says(
    "2.3, 4.2, 4.3",
    "Then u16 counts of nodes N, mounts M, entries E; u16 zero; u32 text length T; u32 total length: 20 bytes. .. 2. Signature and zero "
    "field. 3. N 1 to 4,096, M 1 to 256, E 0 to 4,096; total length = 20 + 12N + 8M + 8E + T = image length."
)
check("byte-narrow", NARROW, ACCEPTED, "`narrow` as it is")
check("byte-wide", WIDE, ACCEPTED, "`wide`: N 269, E 266, and a text of over 255 bytes")
upper_bytes("header", 0, "nodes", broken(3))
upper_bytes("header", 0, "mounts", broken(3))
upper_bytes("header", 0, "entries", broken(3))
upper_bytes("header", 0, "zero", broken(2), lowest=0)
upper_bytes("header", 0, "text", broken(3))
upper_bytes("header", 0, "total", broken(3))
over(WIDE, "wide")
call("byte-handle-268", ".", refused(ENOTDIR), at=(0, 268))
call("byte-handle-269", ".", refused(EBADF), at=(0, 269))
call("byte-handle-mount-255", ".", found(255, 0, 1, 0), at=(255, 0), image=OF_256_MOUNTS, shown="256 mounts: `.`")
call("byte-handle-mount-255-up", "..", found(0, 0, 1, 0), at=(255, 0), image=OF_256_MOUNTS, shown="256 mounts: `..`")
call("byte-handle-mount-256", ".", refused(EBADF), at=(256, 0), image=OF_256_MOUNTS, shown="256 mounts: `.`")

says(
    "2.5, 4.4",
    "Node: u16 kind, u16 parent, u32 first, u32 count. Kind 1 directory: its entries are count records from first. .. 4. Nodes: kind 1 "
    "to 4. A directory's parent is a directory numbered no higher than itself ..; its first is the sum of earlier directories' counts. "
    "These counts sum to E (else record N)."
)
upper_bytes("node", 1, "kind", broken(4, 1), "directory")
upper_bytes("node", 1, "parent", broken(4, 1), "directory")
upper_bytes("node", 1, "first", broken(4, 1), "directory")
upper_bytes("node", 1, "count", broken(4, 5), "directory")
upper_bytes("node", 5, "count", broken(4, 6), "last-directory")
call("byte-parent", "q/r/..", found(0, 257, 3, 0), at=(0, 0))
call("byte-parent-of-handle", "..", found(0, 257, 1, 0), at=(0, 258))
call("byte-parent-in-mount-1", "s/t/..", found(1, 261, 3, 0), at=(1, 260))
call("byte-parent-under-root", ".", found(1, 262, 1, 0), at=(1, 262))
call("byte-first", "q/r", found(0, 258, 2, 0), at=(0, 0))
call("byte-first-next", "a/b", found(0, 2, 2, 0), at=(0, 0))
call("byte-count-fourth-name", "102", found(0, 102, 1, 0), at=(0, 0))
call("byte-count-last-name", "w", found(0, 265, 1, 0), at=(0, 0), flags=O_PATH | O_NOFOLLOW)

says("2.5, 4.4", "2 file. .. 4. Nodes: kind 1 to 4. .. Other kinds: parent 0. File: first and count 0.")
upper_bytes("node", 2, "kind", broken(4, 2), "file")
upper_bytes("node", 2, "parent", broken(4, 2), "file")
upper_bytes("node", 2, "first", broken(4, 2), "file")
upper_bytes("node", 2, "count", broken(4, 2), "file")

says(
    "2.5, 4.4",
    "3 symbolic link: body is count text bytes at offset first. .. 4. Nodes: kind 1 to 4. .. Other kinds: parent 0. .. Symbolic link: body "
    "inside the text, 1 to 4,095 bytes, no zero byte."
)
upper_bytes("node", 3, "kind", broken(4, 3), "link")
upper_bytes("node", 3, "parent", broken(4, 3), "link")
upper_bytes("node", 3, "first", broken(4, 3), "link")
upper_bytes("node", 3, "count", broken(4, 3), "link")
call("byte-link-first", "l", found(0, 258, 3, 1), at=(0, 0))
call("byte-link-count", "w", found(0, 257, 152, 1), at=(0, 0))
over(FAR, "far")
call("byte-link-first-65454", "l", found(0, 1, 2, 1), at=(0, 0))
over(WIDE, "wide")

says(
    "2.5, 4.4, 4.7",
    "4 magic link: first is the target mount, count the target node. .. 4. Nodes: kind 1 to 4. .. Other kinds: parent 0. .. 7. Magic links: "
    "target mount below M, target a directory or file; a directory is under that mount's root."
)
upper_bytes("node", 4, "kind", broken(4, 4), "magic")
upper_bytes("node", 4, "parent", broken(4, 4), "magic")
upper_bytes("node", 4, "first", broken(7, 4), "magic")
upper_bytes("node", 4, "count", broken(7, 4), "magic")
call("byte-magic-directory", "m", found(0, 257, 1, 1), at=(0, 0))
call("byte-magic-file", "n", found(1, 263, 1, 1), at=(0, 0))
call("byte-magic-on", "u/t", found(1, 262, 2, 1), at=(0, 0))

says(
    "2.6, 4.6",
    "Mount: u16 root node, u16 parent mount, u16 mount point node, u16 zero. .. 6. Mounts: root is a directory; last field zero. Mount 0: "
    "parent 0, point = root. Others: parent number lower; point is a directory under the parent's root and not that root;"
)
for record in (0, 1):
    upper_bytes("mount", record, "root", broken(6, record), f"{record}")
    upper_bytes("mount", record, "parent", broken(6, record), f"{record}")
    upper_bytes("mount", record, "point", broken(6, record), f"{record}")
    upper_bytes("mount", record, "zero", broken(6, record), f"{record}", lowest=0)
call("byte-root", "q/p", found(1, 260, 2, 0), at=(0, 0))
call("byte-root-on", "q/p/s/f", found(1, 263, 4, 0), at=(0, 0))
call("byte-root-handle", ".", found(1, 260, 1, 0), at=(1, 260))
call("byte-root-low-handle", ".", refused(EBADF), at=(1, 4))
call("byte-root-low-below", ".", refused(EBADF), at=(1, 5))
call("byte-point-climbed", "..", found(0, 257, 1, 0), at=(1, 260))
call("byte-point-covered", ".", refused(EBADF), at=(0, 259))
call("byte-point-low-handle", ".", found(0, 3, 1, 0), at=(0, 3))
call("byte-point-low", "c", found(0, 3, 1, 0), at=(0, 0))

says(
    "2.7, 4.5",
    'Entry: u32 name offset, u16 name length, u16 node. .. 5. Entries: name inside the text, 1 to 255 bytes, no zero byte or "/", not "." '
    'or ".."; node below N;'
)
upper_bytes("entry", 3, "offset", broken(5, 3))
upper_bytes("entry", 3, "length", broken(5, 3))
upper_bytes("entry", 3, "node", broken(5, 3))
check("byte-entry-length-261", of_name(261), broken(5, 0), "a name of 261 bytes, all in the text")
call("byte-entry-node", "q", found(0, 257, 1, 0), at=(0, 0))
call("byte-entry-node-low", "a", found(0, 1, 1, 0), at=(0, 0))
call("byte-entry-node-256", "o", found(0, 256, 1, 0), at=(0, 0))
call("byte-entry-offset", "255", found(0, 255, 1, 0), at=(0, 0))
over(FAR, "far")
call("byte-entry-offset-65453", "f", found(0, 1, 1, 0), at=(0, 0))
