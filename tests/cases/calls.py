"""What refuses a call before its walk, and the limits."""

import trees
from image import counts, number
from listed import *

BENCH = trees.bench()
CHAINS = trees.chains()
LAYERED = trees.layered()
LINKED = trees.linked()
LONGEST = trees.longest()
BAD_TABLE = b"TOC2" + BENCH[4:]

KNOWN_FLAGS = [16, 17, 19, 21]
KNOWN_RESOLVE = [0, 1, 2, 3, 4]

# ---------------------------------------------------------------------------------------------------------------------------------
group("The open_how", "The bench tree, handle (0,1), path `cal` if no other is given.")
over(BENCH, "bench")
says("6.2", "| 7 E2BIG | open_how over 4,096 bytes, or over 24 with a byte after the 24th not zero | .. | 22 EINVAL | open_how under 24 bytes;")
for length, answer in [
    (0, refused(EINVAL)),
    (1, refused(EINVAL)),
    (16, refused(EINVAL)),
    (23, refused(EINVAL)),
    (24, found(0, 2, 1, 0)),
    (25, found(0, 2, 1, 0)),
    (4096, found(0, 2, 1, 0)),
    (4097, refused(E2BIG)),
    (5000, refused(E2BIG)),
]:
    call(f"how-{length}-zeros", "cal", answer, how=bytes(length), shown=f"{length} zero bytes")
for length, at, answer in [
    (25, 25, refused(E2BIG)),
    (32, 29, refused(E2BIG)),
    (4096, 25, refused(E2BIG)),
    (4096, 2000, refused(E2BIG)),
    (4096, 4096, refused(E2BIG)),
    (4097, 4097, refused(E2BIG)),
]:
    how = bytearray(length)
    how[at - 1] = 1
    call(f"how-{length}-byte-{at}-set", "cal", answer, how=bytes(how), shown=f"{length} bytes, byte {at} set")
for length in range(24):
    if length not in (0, 1, 16, 23):
        call(f"how-{length}-zeros", "cal", refused(EINVAL), how=bytes(length), family="as many zero bytes, each other number below 24")
how = bytearray(25)
how[24] = 0x80
call("how-25-high-bit-set", "cal", refused(E2BIG), how=bytes(how), shown="25 bytes, the highest bit of byte 25 set")

says("6.7, 6.8", "| 22 EINVAL | .. both BENEATH and IN_ROOT; mode or padding not zero;")
call("both-scopes", "cal", refused(EINVAL), resolve=BENEATH | IN_ROOT)
call("both-scopes-and-more", "cal", refused(EINVAL), resolve=BENEATH | IN_ROOT | NO_XDEV | NO_MAGICLINKS | NO_SYMLINKS)
for byte in range(9, 17):
    how = bytearray(24)
    how[byte - 1] = 1
    part = "mode" if byte < 11 else "padding"
    call(f"{part}-byte-{byte}", "cal", refused(EINVAL), how=bytes(how), shown=f"byte {byte} set, of the {part}")
call("mode-0600", "cal", refused(EINVAL), how=open_how(mode=0o600), shown="mode 0600")
call("padding-high-bit", "cal", refused(EINVAL), how=open_how(mode=1 << 63), shown="the padding's highest bit")

says("6.3", "Flags known: O_DIRECTORY 0x10000, O_NOFOLLOW 0x20000, O_PATH 0x200000, O_CLOEXEC 0x80000 (no effect); house: no others yet.")
for bit in KNOWN_FLAGS:
    call(f"known-flag-{bit}", "cal", found(0, 2, 1, 0), flags=1 << bit)
call("known-flags-all", "cal", found(0, 2, 1, 0), flags=O_DIRECTORY | O_NOFOLLOW | O_PATH | O_CLOEXEC)
call("o-cloexec-on-link", "cal/up", found(0, 0, 4, 1), flags=O_CLOEXEC)
call("o-cloexec-on-file", "cal/tare", found(0, 3, 2, 0), flags=O_CLOEXEC)

says("6.4", "Resolve: NO_XDEV 1, NO_MAGICLINKS 2, NO_SYMLINKS 4, BENEATH 8, IN_ROOT 16.")
for bit in KNOWN_RESOLVE:
    call(f"known-resolve-{bit}", "cal", found(0, 2, 1, 0), resolve=1 << bit)
call("known-flags-all-resolve-all-but-in-root", "cal", found(0, 2, 1, 0), flags=0x2B0000, resolve=15)
call("known-resolve-all-but-in-root", "cal", found(0, 2, 1, 0), resolve=15)
call("known-resolve-all-but-beneath", "cal", found(0, 2, 1, 0), resolve=23)

# ---------------------------------------------------------------------------------------------------------------------------------
group("Unknown bits", "The bench tree, handle (0,1), path `cal`: EINVAL, with the number of the bit as detail.")
says("6.5, 6.6", "An unknown bit is named by its number, lowest first: detail b for flags bit b, 64 + b for resolve bit b.")
for bit in range(64):
    if bit not in KNOWN_FLAGS:
        call(f"flags-bit-{bit}", "cal", refused(EINVAL, detail=bit), flags=1 << bit, family="each unknown bit of flags, alone")
for bit in range(64):
    if bit not in KNOWN_RESOLVE:
        call(f"resolve-bit-{bit}", "cal", refused(EINVAL, detail=64 + bit), resolve=1 << bit, family="each unknown bit of resolve, alone")
for bit in range(64):
    if bit not in KNOWN_FLAGS:
        family = "each unknown bit of flags, with bit 63 and with bit 5 of resolve"
        call(f"flags-bit-{bit}-and-more", "cal", refused(EINVAL, detail=bit), flags=1 << bit | 1 << 63, resolve=1 << 5, family=family)
for bit in range(64):
    if bit not in KNOWN_RESOLVE:
        family = "each unknown bit of resolve, with bit 63"
        call(f"resolve-bit-{bit}-and-more", "cal", refused(EINVAL, detail=64 + bit), resolve=1 << bit | 1 << 63, family=family)
call("flags-bits-0-63", "cal", refused(EINVAL, detail=0), flags=1 | 1 << 63)
call("flags-bits-31-32", "cal", refused(EINVAL, detail=31), flags=3 << 31)
call("flags-bits-15-to-18", "cal", refused(EINVAL, detail=15), flags=0xF << 15)
call("flags-bits-16-to-19", "cal", refused(EINVAL, detail=18), flags=0xF << 16)
call("flags-all", "cal", refused(EINVAL, detail=0), flags=2**64 - 1)
call("resolve-bits-5-63", "cal", refused(EINVAL, detail=69), resolve=1 << 5 | 1 << 63)
call("resolve-bits-31-32", "cal", refused(EINVAL, detail=95), resolve=3 << 31)
call("resolve-all", "cal", refused(EINVAL, detail=69), resolve=2**64 - 1)
call("flags-and-resolve-all", "cal", refused(EINVAL, detail=0), flags=2**64 - 1, resolve=2**64 - 1)

says("6.9", "OpenBSD's O_BELOW has the value 0x40000, which here is unknown; the mark belongs to the handle.")
call("o-below", "cal", refused(EINVAL, detail=18), flags=0x40000)
call("o-below-marked", "..", refused(EINVAL, detail=18), mark=True, flags=0x40000)

# ---------------------------------------------------------------------------------------------------------------------------------
group("The path", "The bench tree, handle (0,1).")
says("7.3, 9.9", "| 36 ENAMETOOLONG | path over 4,095 bytes, or a component over 255 when looked up |")
call("path-4095-dots", "./" * 2047 + ".", found(0, 1, 2048, 0), shown="2,047 times `./` and `.`: 4,095 bytes")
call("path-4096-dots", "./" * 2048, refused(ENAMETOOLONG), shown="2,048 times `./`: 4,096 bytes")
call("path-4095-slashes", "/" * 4095, found(0, 0, 0, 0), shown="4,095 slashes")
call("path-4096-slashes", "/" * 4096, refused(ENAMETOOLONG), shown="4,096 slashes")
call("path-4095-name", "n" * 4095, refused(ENAMETOOLONG, 1, 0), shown="a name of 4,095 bytes")
call("path-5000", "n" * 5000, refused(ENAMETOOLONG), shown="a name of 5,000 bytes")
call("path-4095-found", "cal/" + "/" * 4087 + "tare", found(0, 3, 2, 0), shown="`cal/`, 4,087 slashes more and `tare`: 4,095 bytes")
over(LINKED, "linked")
call("name-255-found", "n" * 255, found(0, 13, 1, 0), at=(0, 0), shown="the name of 255 bytes")
call("name-255-absent", "m" * 255, refused(ENOENT, 1, 0), at=(0, 0), shown="another name of 255 bytes")
call("name-256", "n" * 256, refused(ENAMETOOLONG, 1, 0), at=(0, 0), shown="a name of 256 bytes")
call("name-256-before-more", "n" * 256 + "/..", refused(ENAMETOOLONG, 1, 0), at=(0, 0), shown="a name of 256 bytes and `/..`")
call("name-256-later", "d/../" + "n" * 256, refused(ENAMETOOLONG, 3, 0), at=(0, 0), shown="`d/../` and a name of 256 bytes")
call("name-256-in-body", "long", refused(ENAMETOOLONG, 2, 1), at=(0, 0))
call("name-254-absent", "n" * 254, refused(ENOENT, 1, 0), at=(0, 0), shown="a name of 254 bytes")
over(BENCH, "bench")

says("7.3", "| 2 ENOENT | empty path; .. | 22 EINVAL | .. zero byte in the path (house) |")
call("path-empty", "", refused(ENOENT))
call("path-empty-in-root", "", refused(ENOENT), resolve=IN_ROOT)
call("path-zero", b"\0", refused(EINVAL))
call("path-zero-first", b"\0cal", refused(EINVAL))
call("path-zero-middle", b"ca\0l", refused(EINVAL))
call("path-zero-last", b"cal\0", refused(EINVAL))
call("path-zero-after-slash", b"/\0", refused(EINVAL))
call("path-zero-at-4095", b"/" * 4094 + b"\0", refused(EINVAL), shown="4,094 slashes and a zero byte")

# ---------------------------------------------------------------------------------------------------------------------------------
group("The handle", "The bench tree (12 nodes, 2 mounts) and `layered`; path `.` if no other is given.")
says("7.4", 'In this order: number out of range: EBADF; not a directory: ENOTDIR; not under the mount\'s root, or "covered": EBADF.')
call("handle-root", ".", found(0, 0, 1, 0), at=(0, 0))
call("handle-mount-1", ".", found(1, 8, 1, 0), at=(1, 8))
call("handle-mount-2", ".", refused(EBADF), at=(2, 8))
call("handle-mount-65535", ".", refused(EBADF), at=(65535, 0))
call("handle-mount-2-to-32", ".", refused(EBADF), at=(2**32, 0))
call("handle-mount-2-to-64-less-1", ".", refused(EBADF), at=(2**64 - 1, 0))
call("handle-node-11", ".", refused(ENOTDIR), at=(0, 11))
call("handle-node-12", ".", refused(EBADF), at=(0, 12))
call("handle-node-65536", ".", refused(EBADF), at=(0, 65536))
call("handle-node-2-to-32-and-1", ".", refused(EBADF), at=(0, 2**32 + 1))
call("handle-node-2-to-64-less-1", ".", refused(EBADF), at=(0, 2**64 - 1))
call("handle-both-out-of-range", ".", refused(EBADF), at=(2, 12))
call("handle-file", ".", refused(ENOTDIR), at=(0, 3))
call("handle-link", ".", refused(ENOTDIR), at=(0, 4))
call("handle-magic", ".", refused(ENOTDIR), at=(0, 10))
call("handle-outside-mount-1", ".", refused(EBADF), at=(1, 1))
call("handle-above-mount-1", ".", refused(EBADF), at=(1, 0))
call("handle-outside-mount-0", ".", refused(EBADF), at=(0, 8))
over(LAYERED, "layered")
call("handle-root-of-mount-2", ".", found(2, 4, 1, 0), at=(2, 4))
call("handle-under-mount-2", ".", found(2, 6, 1, 0), at=(2, 6))
call("handle-above-mount-2", ".", refused(EBADF), at=(2, 3))
call("handle-beside-mount-2", ".", refused(EBADF), at=(2, 8))
call("handle-of-mount-0-in-mount-2", ".", refused(EBADF), at=(2, 1))
call("handle-root-of-mount-3", ".", found(3, 7, 1, 0), at=(3, 7))
call("handle-of-mount-1-in-mount-3", ".", refused(EBADF), at=(3, 4))
call("handle-root-of-mount-4", ".", found(4, 11, 1, 0), at=(4, 11))
call("handle-above-mount-4", ".", refused(EBADF), at=(4, 7))
call("handle-under-mount-5", ".", found(5, 4, 1, 0), at=(5, 4))
call("handle-of-mount-3-in-mount-5", ".", refused(EBADF), at=(5, 7))
call("handle-under-mount-6", ".", found(6, 2, 1, 0), at=(6, 2))
call("handle-above-mount-6", ".", refused(EBADF), at=(6, 0))
call("handle-of-mount-1-in-mount-6", ".", refused(EBADF), at=(6, 4))
over(BENCH, "bench")

says("3.7", 'A place is covered if it is the point, in the parent mount, of a mount other than mount 0.')
call("handle-covered", ".", refused(EBADF), at=(0, 7))
call("handle-below-covered", ".", found(0, 15, 1, 0), at=(0, 15), image=trees.mounted())
over(LAYERED, "layered")
call("handle-covered-in-mount-2", ".", refused(EBADF), at=(2, 5))
call("handle-covered-in-mount-3", ".", refused(EBADF), at=(3, 11))
call("handle-not-covered-in-mount-5", ".", found(5, 5, 1, 0), at=(5, 5))
over(BENCH, "bench")

# ---------------------------------------------------------------------------------------------------------------------------------
group("The handle of an absolute path", "The bench tree (12 nodes, 2 mounts) if no other is named.")
# What refuses a handle where it is checked.
BAD_HANDLES = {
    "mount-2": ((2, 0), EBADF),
    "mount-65536": ((65536, 0), EBADF),
    "mount-2-to-32": ((2**32, 0), EBADF),
    "node-12": ((0, 12), EBADF),
    "node-65536": ((0, 65536), EBADF),
    "node-2-to-32": ((0, 2**32), EBADF),
    "both-2-to-64-less-1": ((2**64 - 1, 2**64 - 1), EBADF),
    "outside-mount-0": ((0, 8), EBADF),
    "above-mount-1": ((1, 0), EBADF),
    "covered": ((0, 7), EBADF),
    "file": ((0, 3), ENOTDIR),
    "link": ((0, 4), ENOTDIR),
    "magic": ((0, 10), ENOTDIR),
}
SCOPED = ["mount-2-to-32", "node-12", "both-2-to-64-less-1", "outside-mount-0", "covered", "file", "magic"]
OTHERS = NO_XDEV | NO_MAGICLINKS | NO_SYMLINKS
says("7.5", "with an absolute path, no IN_ROOT and no mark, the handle isn't checked.")
call("handle-root-absolute", "/", found(0, 0, 0, 0), at=(0, 0))
for label, (at, _) in BAD_HANDLES.items():
    call(f"handle-{label}-absolute", "/", found(0, 0, 0, 0), at=at)
call("handle-bad-absolute", "/lab/cal", found(0, 2, 2, 0), at=(0, 12))
# The numbers' lower parts are those of a good handle in the first two.
for label, at, path, resolve, answer in [
    ("dotdot", (2**32 + 1, 8), "/..", 0, found(0, 0, 1, 0)),
    ("others", (0, 2**32 + 1), "/lab/cal", OTHERS, found(0, 2, 2, 0)),
    ("slashes", (0, 3), "//", NO_XDEV, found(0, 0, 0, 0)),
    ("file", (1, 3), "/lab/cal/tare", 0, found(0, 3, 3, 0)),
    ("file-slash", (0, 10), "/lab/cal/tare/", 0, refused(ENOTDIR, 3, 0)),
    ("file-on", (0, 3), "/lab/cal/tare/x", 0, refused(ENOTDIR, 3, 0)),
    ("absent", (0, 65535), "/nope", 0, refused(ENOENT, 1, 0)),
    ("mount", (65535, 0), "/lab/pool/run", 0, found(1, 9, 3, 0)),
    ("mount-no-xdev", (0, 7), "/lab/pool/run", NO_XDEV, refused(EXDEV, 2, 0)),
    ("jump", (0, 11), "/lab/cal/abs", 0, found(0, 3, 6, 1)),
    ("jump-no-xdev", (1, 1), "/lab/cal/abs", NO_XDEV, found(0, 3, 6, 1)),
    ("jump-no-symlinks", (0, 5), "/lab/cal/abs", NO_SYMLINKS, refused(ELOOP, 3, 0)),
    ("up", (2, 12), "/lab/cal/up/lab", NO_MAGICLINKS, found(0, 1, 6, 1)),
    ("up-no-symlinks", (0, 4), "/lab/cal/up/lab", NO_SYMLINKS, refused(ELOOP, 3, 0)),
    ("magic", (0, 10), "/lab/cal/fd", NO_XDEV, found(0, 3, 3, 1)),
    ("magic-no-magiclinks", (0, 10), "/lab/cal/fd", NO_MAGICLINKS, refused(ELOOP, 3, 0)),
    ("loop", (0, 6), "/lab/cal/loop", 0, refused(ELOOP, 43, 40)),
]:
    call(f"unchecked-{label}", path, answer, at=at, resolve=resolve)
call("unchecked-nofollow", "/lab/cal/up", found(0, 4, 3, 0), at=(0, 4), flags=O_NOFOLLOW | O_PATH)
call("unchecked-required", "/lab/cal/tare", refused(ENOTDIR, 3, 0), at=(0, 12), flags=O_DIRECTORY)

says("7.5, 9.2", "The root is the handle under IN_ROOT, else mount 0's root. .. with an absolute path, no IN_ROOT and no mark, the handle isn't checked.")
over(trees.inner(), "inner")
call("unchecked-inner-file", "/", found(0, 2, 0, 0), at=(0, 0))
call("unchecked-inner-above", "/e", found(0, 3, 1, 0), at=(0, 1))
over(LAYERED, "layered")
call("unchecked-layered-covered", "/a/g/d", found(3, 7, 3, 0), at=(2, 5))
call("unchecked-layered-above", "/in/..", found(3, 7, 2, 1), at=(6, 0))
over(CHAINS, "chains")
call("unchecked-chains", "/t1", found(0, 1, 41, 40), at=(1, 0))
over(BENCH, "bench")

says("7.5", "A marked handle is still checked first,")
for label, (at, errno) in BAD_HANDLES.items():
    call(f"handle-{label}-mark", "/", refused(errno), at=at, mark=True)
call("handle-file-mark-beneath", "/lab", refused(ENOTDIR), at=(0, 3), mark=True, resolve=BENEATH)
call("handle-covered-mark-in-root", "/", refused(EBADF), at=(0, 7), mark=True, resolve=IN_ROOT)

says("7.5", "With BENEATH, no mark and no refusal before the walk, such a path meets EXDEV at Start whatever the handle is.")
for label in SCOPED:
    call(f"handle-{label}-beneath", "/", refused(EXDEV, 0, 0), at=BAD_HANDLES[label][0], resolve=BENEATH)
call("handle-node-12-beneath-and-more", "/nope", refused(EXDEV, 0, 0), at=(0, 12), resolve=BENEATH | OTHERS)

says("7.4, 7.5", "Demand 1 then refuses a bad handle where the handle is checked,")
for label in SCOPED:
    at, errno = BAD_HANDLES[label]
    call(f"handle-{label}-in-root", "/", refused(errno), at=at, resolve=IN_ROOT)
call("handle-node-12-in-root-and-more", "/lab", refused(EBADF), at=(0, 12), resolve=IN_ROOT | OTHERS)
for label, path, mark, resolve in [
    ("mount-2", "./", False, NO_XDEV),
    ("node-12", "..", True, 0),
    ("outside-mount-0", "run", False, OTHERS),
    ("covered", ".", False, IN_ROOT),
    ("file", "cal", False, BENEATH),
    ("link", ".//", False, NO_SYMLINKS),
    ("magic", "./lab", False, NO_MAGICLINKS),
]:
    at, errno = BAD_HANDLES[label]
    call(f"handle-{label}-relative", path, refused(errno), at=at, mark=mark, resolve=resolve)

says("7.5, 10.3", "| Start, Escape | mark ENOENT; BENEATH EXDEV |")
call("unforbidden-escape", "/lab/..", found(0, 0, 2, 0))
call("unforbidden-no-escape", "/lab/..", found(0, 0, 2, 0), at=(7, 7))
call("unforbidden-escape-at-root", "/..", found(0, 0, 1, 0), at=(0, 0))
call("unforbidden-escape-and-climb", "/lab/pool/..", found(0, 1, 3, 0), at=(1, 8))
call("unforbidden-climb-past-covered", "/lab/pool/..", found(0, 1, 3, 0), at=(0, 7))
over(trees.mounted(), "mounted")
call("unforbidden-escape-bad-handle", "/under/..", found(0, 0, 2, 1), at=(0, 1))
call("unforbidden-escape-bad-handle-no-xdev", "/under/..", found(0, 0, 2, 1), at=(0, 1), resolve=NO_XDEV)
over(BENCH, "bench")

# ---------------------------------------------------------------------------------------------------------------------------------
group("The order of refusals", "The bench tree. Each call has two faults or more, and the earlier is answered; a handle that isn't checked is none.")
says("7.1", "Order: table, open_how length (too short, too long, tail), flags, resolve, both scopes, mode, path too long, path empty, zero byte, handle, walk.")
LONG = "n" * 4096
SHORT = bytes([1]) + bytes(22)
TAIL = bytes(1) + b"\1"
call("order-table-short", "cal", refused(EUCLEAN), how=bytes(23), image=BAD_TABLE, shown="a refused table, an open_how of 23 bytes")
call("order-table-all", "", refused(EUCLEAN), at=(9, 99), how=SHORT, image=BAD_TABLE, shown="a refused table, and all that can be wrong after it")
call("order-short-flags", "cal", refused(EINVAL), how=SHORT, shown="23 bytes with bit 0 of flags: no bit is named")
call("order-short-path", LONG, refused(EINVAL), how=bytes(23), shown="23 bytes, a path of 4,096")
call("order-long-tail", "cal", refused(E2BIG), how=bytes(4096) + b"\1", shown="4,097 bytes, the last one set")
call("order-long-flags", "cal", refused(E2BIG), how=open_how(flags=1, tail=bytes(4073)), shown="4,097 bytes with bit 0 of flags")
call("order-tail-flags", "cal", refused(E2BIG), how=open_how(flags=1, tail=TAIL), shown="the tail set, bit 0 of flags")
call("order-tail-all", "", refused(E2BIG), at=(9, 99), how=open_how(1, 32, 1, TAIL), shown="the tail set, and all that can be wrong after it")
call("order-flags-resolve", "cal", refused(EINVAL, detail=63), flags=1 << 63, resolve=1 << 5)
call("order-resolve-scopes", "cal", refused(EINVAL, detail=69), resolve=1 << 5 | BENEATH | IN_ROOT)
call("order-flags-scopes", "cal", refused(EINVAL, detail=63), flags=1 << 63, resolve=BENEATH | IN_ROOT)
call("order-flags-mode", "cal", refused(EINVAL, detail=63), how=open_how(1 << 63, 0, 1), shown="bit 63 of flags, mode 1")
call("order-resolve-mode", "cal", refused(EINVAL, detail=127), how=open_how(0, 1 << 63, 1), shown="bit 63 of resolve, mode 1")
call("order-scopes-mode", "cal", refused(EINVAL), how=open_how(0, BENEATH | IN_ROOT, 1), shown="both scopes, mode 1")
call("order-scopes-path", LONG, refused(EINVAL), resolve=BENEATH | IN_ROOT, shown="both scopes, a path of 4,096 bytes")
call("order-scopes-empty", "", refused(EINVAL), resolve=BENEATH | IN_ROOT, shown="both scopes, an empty path")
call("order-mode-path", LONG, refused(EINVAL), how=open_how(mode=1), shown="mode 1, a path of 4,096 bytes")
call("order-mode-empty", "", refused(EINVAL), how=open_how(mode=1), shown="mode 1, an empty path")
call("order-mode-handle", "cal", refused(EINVAL), at=(9, 99), how=open_how(mode=1), shown="mode 1, a handle out of range")
call("order-path-zero", b"\0" + b"n" * 4095, refused(ENAMETOOLONG), shown="a path of 4,096 bytes that begins with a zero byte")
call("order-path-handle", LONG, refused(ENAMETOOLONG), at=(0, 3), shown="a path of 4,096 bytes, a file as the handle")
call("order-empty-handle", "", refused(ENOENT), at=(9, 99), shown="an empty path, a handle out of range")
call("order-empty-handle-kind", "", refused(ENOENT), at=(0, 3), shown="an empty path, a file as the handle")
call("order-zero-handle", b"\0", refused(EINVAL), at=(9, 99), shown="a zero byte, a handle out of range")
call("order-zero-handle-kind", b"\0", refused(EINVAL), at=(0, 3), shown="a zero byte, a file as the handle")
call("order-zero-walk", b"/\0", refused(EINVAL), resolve=BENEATH, shown="a zero byte, Start under BENEATH")
call("order-range-kind", "cal", refused(EBADF), at=(2, 3), shown="a mount out of range, a file")
call("order-kind-under", "cal", refused(ENOTDIR), at=(1, 3), shown="a file that is not under the mount's root")
call("order-under-walk", "/", refused(EBADF), at=(1, 1), mark=True, shown="a handle outside its mount, marked, Start")
call("order-range-walk", "..", refused(EBADF), at=(0, 12), resolve=BENEATH, shown="a handle out of range, `..` under BENEATH")
call("order-covered-enoent", "nope", refused(EBADF), at=(0, 7), shown="a covered handle, an absent name")

says("7.1, 7.5", "with an absolute path, no IN_ROOT and no mark, the handle isn't checked. .. With BENEATH, no mark and no refusal before the walk, such a path meets EXDEV at Start")
call("order-kind-walk", "/", refused(EXDEV, 0, 0), at=(0, 3), resolve=BENEATH, shown="a file as the handle, Start under BENEATH")
call("order-covered-walk", "/", refused(EXDEV, 0, 0), at=(0, 7), resolve=BENEATH, shown="a covered handle, Start under BENEATH")
for label, answer, path, fault, shown in [
    ("table", refused(EUCLEAN), "/", {"image": BAD_TABLE}, "`/`, a refused table"),
    ("short", refused(EINVAL), "/", {"how": bytes(23)}, "`/`, an open_how of 23 bytes"),
    ("long", refused(E2BIG), "/", {"how": bytes(4097)}, "`/`, an open_how of 4,097 bytes"),
    ("flags", refused(EINVAL, detail=63), "/", {"flags": 1 << 63, "resolve": BENEATH}, None),
    ("resolve", refused(EINVAL, detail=69), "/", {"resolve": 1 << 5 | BENEATH}, None),
    ("scopes", refused(EINVAL), "/", {"resolve": BENEATH | IN_ROOT}, None),
    ("mode", refused(EINVAL), "/", {"how": open_how(0, BENEATH, 1)}, "`/`, mode 1, BENEATH"),
    ("path", refused(ENAMETOOLONG), "/" * 4096, {"resolve": BENEATH}, "4,096 slashes"),
    ("zero", refused(EINVAL), b"/\0", {}, None),
    ("zero-beneath", refused(EINVAL), b"/\0", {"resolve": BENEATH}, None),
]:
    call(f"order-{label}-absolute", path, answer, at=(9, 99), shown=shown, **fault)

# ---------------------------------------------------------------------------------------------------------------------------------
group("Limits of the walk", "Over `chains` and `longest`, handle (0,0).")
over(CHAINS, "chains")
says("11.3", "Limits: 40 links pass, 41 don't;")
call("links-tail-40", "t1", found(0, 1, 41, 40), at=(0, 0))
call("links-tail-41", "t0", refused(ELOOP, 41, 40), at=(0, 0))
call("links-nested-40", "n1", found(0, 1, 80, 40), at=(0, 0))
call("links-nested-41", "n0", refused(ELOOP, 41, 40), at=(0, 0))
call("links-absolute-40", "a1", found(0, 1, 41, 40), at=(0, 0))
call("links-absolute-41", "a0", refused(ELOOP, 41, 40), at=(0, 0))
call("links-magic-40", "m/" * 39 + "m", found(0, 0, 40, 40), at=(0, 0), shown="40 times `m`")
call("links-magic-41", "m/" * 40 + "m", refused(ELOOP, 41, 40), at=(0, 0), shown="41 times `m`")
call("links-magic-40-then-name", "m/" * 40 + "d", found(0, 1, 41, 40), at=(0, 0), shown="40 times `m/` and `d`")
call("links-magic-40-then-link", "m/" * 40 + "t40", refused(ELOOP, 41, 40), at=(0, 0), shown="40 times `m/` and `t40`")
call("links-mixed-40", "m/" * 10 + "n31/../t31/../a31", found(0, 1, 54, 40), at=(0, 0), shown="10 times `m/` and `n31/../t31/../a31`")
call("links-mixed-41", "m/" * 11 + "n31/../t31/../a31", refused(ELOOP, 54, 40), at=(0, 0), shown="11 times `m/` and `n31/../t31/../a31`")
call("links-40-then-unfollowed", "t1/../t0", found(0, 4, 43, 40), at=(0, 0), flags=O_NOFOLLOW | O_PATH)

says("9.13", "A link that is not last, or is last and followed: the 41st gives ELOOP. Then event Link.")
call("links-41st-magic-free", "u1", refused(ELOOP, 41, 40), at=(0, 0))
call("links-41st-magic-beneath", "u1", refused(ELOOP, 41, 40), at=(0, 0), resolve=BENEATH)
call("links-41st-magic-mark", "u1", refused(ELOOP, 41, 40), at=(0, 0), mark=True)
call("links-41st-magic-in-root", "u1", refused(ELOOP, 41, 40), at=(0, 0), resolve=IN_ROOT)
call("links-40th-magic-free", "u2", found(0, 0, 40, 40), at=(0, 0))
call("links-40th-magic-beneath", "u2", refused(EXDEV, 40, 39), at=(0, 0), resolve=BENEATH)
call("links-40th-magic-mark", "u2", refused(ENOENT, 40, 39), at=(0, 0), mark=True)
call("links-40th-magic-in-root", "u2", refused(EXDEV, 40, 39), at=(0, 0), resolve=IN_ROOT)
call("links-41st-jump-beneath", "v1", refused(ELOOP, 41, 40), at=(0, 0), resolve=BENEATH)
call("links-41st-jump-mark", "v1", refused(ELOOP, 41, 40), at=(0, 0), mark=True)
call("links-40th-jump-free", "v2", found(0, 1, 41, 40), at=(0, 0))
call("links-40th-jump-beneath", "v2", refused(EXDEV, 40, 39), at=(0, 0), resolve=BENEATH)
call("links-40th-jump-mark", "v2", refused(ENOENT, 40, 39), at=(0, 0), mark=True)

says("9.4, 9.16", 'A directory is required by O_DIRECTORY, by a "/" ending the path, or by one ending the body of a followed last link.')
call("links-40-to-file", "w1", found(0, 209, 41, 40), at=(0, 0))
call("links-40-required-by-flag", "w1", refused(ENOTDIR, 41, 40), at=(0, 0), flags=O_DIRECTORY)
call("links-40-required-by-flag-and-there", "t1", found(0, 1, 41, 40), at=(0, 0), flags=O_DIRECTORY)
call("links-40-required-by-slash", "w1/", refused(ENOTDIR, 41, 40), at=(0, 0))
call("links-40-required-by-slash-nofollow", "w1/", refused(ENOTDIR, 41, 40), at=(0, 0), flags=O_NOFOLLOW)
call("links-40-required-by-slash-and-there", "t1/", found(0, 1, 41, 40), at=(0, 0))
call("links-40-required-by-slash-and-there-nested", "n1/", found(0, 1, 80, 40), at=(0, 0))
call("links-40-required-by-slash-and-there-absolute", "a1/", found(0, 1, 41, 40), at=(0, 0))
call("links-40-required-by-each-body", "s1", refused(ENOTDIR, 41, 40), at=(0, 0))
call("links-40-required-by-each-body-and-there", "r1", found(0, 1, 41, 40), at=(0, 0))
call("links-40-required-by-first-body", "x", refused(ENOTDIR, 41, 40), at=(0, 0))
call("links-40-required-by-first-body-and-there", "y", found(0, 1, 41, 40), at=(0, 0))
call("links-40-required-by-last-body", "m/" * 39 + "e", refused(ENOTDIR, 41, 40), at=(0, 0), shown="39 times `m/` and `e`")
call("links-40-required-by-last-body-and-there", "m/" * 39 + "k", found(0, 1, 41, 40), at=(0, 0), shown="39 times `m/` and `k`")
call("links-40-magic-to-file", "m/" * 39 + "mf", found(0, 209, 40, 40), at=(0, 0), shown="39 times `m/` and `mf`")
call("links-40-magic-required-by-slash", "m/" * 39 + "mf/", refused(ENOTDIR, 40, 40), at=(0, 0), shown="39 times `m/` and `mf/`")
call("links-40-magic-required-by-body", "m/" * 38 + "z", refused(ENOTDIR, 40, 40), at=(0, 0), shown="38 times `m/` and `z`")
call("links-40-magic-required-and-there", "u2/", found(0, 0, 40, 40), at=(0, 0))
call("links-41-required-by-slash", "w0/", refused(ELOOP, 41, 40), at=(0, 0))
call("links-41-required-by-each-body", "s0", refused(ELOOP, 41, 40), at=(0, 0))

says("11.1", "At most 40 links are followed and at most 83,968 components taken (41 texts of at most 2,048).")
over(LONGEST, "longest")
call("components-83968", "./" * 2047 + "a", found(0, 39, 83968, 40), at=(0, 0), shown="2,047 times `./` and `a`")
call("components-83968-refused", "./" * 2047 + "s", refused(ELOOP, 83968, 40), at=(0, 0), shown="2,047 times `./` and `s`")
call("components-2048", "./" * 2047 + "d", found(0, 1, 2048, 0), at=(0, 0), shown="2,047 times `./` and `d`")
