"""Edits, as `rt must-fail` takes them: a line `file: ..`, then pairs of lines `old: ..` and `new: ..`."""


def said(edit):
    """What an edit is, by its first line."""
    return edit.read_text().splitlines()[0].lstrip("# ")


def make(folder, edit):
    """Makes an edit in a folder. A file that is not there is left out: a copy may have no proofs."""
    for line in edit.read_text().splitlines():
        key, _, value = line.partition(":")
        value = value.removeprefix(" ")
        if key == "file":
            file = folder / value
        elif key == "old":
            old = value
        elif key == "new" and file.exists():
            before = file.read_text()
            if before.count(old) != 1:
                raise SystemExit(f"{edit}: what it replaces stands {before.count(old)} times in {file.name}")
            file.write_text(before.replace(old, value))
