"""What lies outside of a handle's part: the bench tree, and two tables that have a part of it in common with it and nothing else."""

import trees
from listed import *

BENCH = trees.bench()
CAL = (0, 2)


def alike(part, handle, other, rows):
    """Two cases for each row: in the bench tree, and in the other table with the same answer."""
    for name, path, answer, restricted in rows:
        for image, tree, end in [(BENCH, "bench", ""), (getattr(trees, other)(), other, f"-{other}")]:
            over(image, tree)
            call(f"outside-{part}-{name}{end}", path, answer, at=handle, **restricted)
    over(BENCH, "bench")


def scripted(name, opened, counts, image):
    """The sequence of a script that holds "cal" with the mark, as 1, which is opened by a path, and 0 no longer."""
    start(name, image=image, shown=f"`{name.removeprefix('outside-script-')}`")
    open_path(0, opened, given(1, *CAL, *counts), mark=True, flags=O_DIRECTORY)
    close(0)
    open_path(1, "tare", given(0, 0, 3, 1, 0))
    open_path(1, "..", refused(ENOENT, 1, 0))
    open_path(1, ".", given(2, 0, 2, 1, 0), mark=True, flags=O_DIRECTORY)
    open_path(2, "up", refused(ENOENT, 2, 1))
    dup(2, given(3))
    open_path(3, "fd", refused(ENOENT, 1, 0))
    set_mark(0, refused(ENOTTY))
    open_path(0, "x", refused(ENOTDIR), resolve=BENEATH)
    open_path(0, "/lab", refused(EXDEV), resolve=BENEATH)
    open_path(1, "loop", refused(ELOOP, 41, 40))
    close(1)
    open_path(1, "tare", refused(EBADF))


B, R, X, M = {"resolve": BENEATH}, {"resolve": IN_ROOT}, {"resolve": IN_ROOT | NO_XDEV}, {"mark": True}

# ---------------------------------------------------------------------------------------------------------------------------------
group("What lies outside", "Each call in the bench tree and, with the same answer, in `moved` from \"cal\", (0,2), or in `alone` from \"lab\", (0,1).")
says(
    "20.4, 20.6",
    "If two accepted tables have this part in common, with the same node and mount numbers, records, names, bodies and mounts, and the handle "
    "is good in both, their answers to the same call are equal, refusals and counts included.",
)
check("outside-moved", trees.moved(), ACCEPTED, "`moved`")
check("outside-alone", trees.alone(), ACCEPTED, "`alone`")
alike("cal", CAL, "moved", [
    ("tare-beneath", "tare", found(0, 3, 1, 0), B),
    ("up-beneath", "up", refused(EXDEV, 2, 1), B),
    ("up-in-root", "up", found(0, 2, 3, 1), R),
    ("up-mark", "up", refused(ENOENT, 2, 1), M),
    ("abs-beneath", "abs", refused(EXDEV, 1, 0), B),
    ("abs-in-root", "abs", refused(ENOENT, 2, 1), R),
    ("abs-mark", "abs", refused(ENOENT, 1, 0), M),
    ("fd-beneath", "fd", refused(EXDEV, 1, 0), B),
    ("fd-in-root", "fd", refused(EXDEV, 1, 0), R),
    ("fd-in-root-no-xdev", "fd", refused(EXDEV, 1, 0), X),
    ("fd-mark", "fd", refused(ENOENT, 1, 0), M),
    ("fd-beneath-unfollowed", "fd", found(0, 10, 1, 0), {"resolve": BENEATH, "flags": O_PATH | O_NOFOLLOW}),
    ("t-beneath", "t", refused(ENOTDIR, 2, 1), B),
    ("loop-mark", "loop", refused(ELOOP, 41, 40), M),
    ("dotdot-in-root", "..", found(0, 2, 1, 0), R),
    ("dotdot-lab-in-root", "../lab", refused(ENOENT, 2, 0), R),
    ("dotdot-bin-mark", "../bin", refused(ENOENT, 1, 0), M),
    ("slash-in-root", "/", found(0, 2, 0, 0), R),
    ("slash-tare-in-root", "/tare", found(0, 3, 1, 0), R),
    ("slash-lab-beneath", "/lab", refused(EXDEV), B),
    ("slash-bin-mark", "/bin", refused(ENOENT), M),
    ("dev-beneath", "dev", refused(ENOENT, 1, 0), B),
    ("tare-x-beneath", "tare/x", refused(ENOTDIR, 1, 0), B),
])
alike("lab", LAB, "alone", [
    ("pool-beneath", "pool/../cal", found(0, 2, 3, 0), B),
    ("pool-run-mark", "pool/run", found(1, 9, 2, 0), M),
    ("pool-run-in-root-no-xdev", "pool/run", refused(EXDEV, 1, 0), X),
    ("pool-hidden-beneath", "pool/hidden", refused(ENOENT, 2, 0), B),
    ("pool-out-beneath", "pool/../..", refused(EXDEV, 3, 0), B),
    ("pool-out-in-root", "pool/../..", found(0, 1, 3, 0), R),
    ("abs-beneath", "cal/abs", refused(EXDEV, 2, 0), B),
    ("abs-in-root", "cal/abs", refused(ENOENT, 3, 1), R),
    ("jump-in-root", "/cal/../pool/run", found(1, 9, 4, 0), R),
    ("up-beneath", "cal/up", refused(EXDEV, 4, 1), B),
    ("up-in-root", "cal/up", found(0, 1, 4, 1), R),
    ("fd-in-root", "cal/fd", refused(EXDEV, 2, 0), R),
    ("fd-mark", "cal/fd", refused(ENOENT, 2, 0), M),
])

says("20.1", "For an accepted table, a good handle, and BENEATH, IN_ROOT or the mark")
call("outside-not-confined-root", "/", found(0, 0, 0, 0), at=CAL)
call("outside-not-confined-dotdot-cal", "../cal", found(0, 2, 2, 0), at=CAL)
call("outside-not-confined-abs", "abs", found(0, 3, 4, 1), at=CAL)
call("outside-not-confined-fd", "fd", found(0, 3, 1, 1), at=CAL)
over(trees.moved(), "moved")
call("outside-not-confined-root-moved", "/", found(0, 1, 0, 0), at=CAL)
call("outside-not-confined-dotdot-cal-moved", "../cal", refused(ENOENT, 2, 0), at=CAL)
call("outside-not-confined-abs-moved", "abs", refused(ENOENT, 2, 1), at=CAL)
call("outside-not-confined-fd-moved", "fd", found(1, 12, 1, 1), at=CAL)
over(BENCH, "bench")

says(
    "20.8",
    "Each of its opens made with BENEATH, with IN_ROOT or through a number that is marked at that call: all replies and the slots at the end are "
    "the same in both.",
)
scripted("outside-script-bench", "lab/cal", (2, 0), BENCH)
scripted("outside-script-moved", "bin", (1, 0), trees.moved())
